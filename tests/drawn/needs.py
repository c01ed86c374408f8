"""Stacks of small hosts, drawn with a fixed seed, to ask which rules hold of them. Each name of a module that is told can be said in a
policy: none has a control character, a character that cannot be seen or a backslash."""

from drawn import files as drawn
from drawn import hosts, pairs, policies

MODULES = policies.MODULES + [b"pam_faillock.so preauth", b"pam_faillock.so authfail", b"pam_own.so a b=c d", b"pam_own.so b=c d",
                              b"pam_own.so !a [b c] d= x>1", b"[pam own.so]", b"or.so", b"pam_a=b.so", b"/opt/pam_x=y.so", b"pam_wheel.so trust",
                              b"pam_listfile.so file=/x sense=deny"]
ENDINGS = [b"sufficient", b"required", b"requisite", b"[success=1 default=ignore]", b"optional"]
SERVICES = [*policies.SERVICES * 4, b"SSHD", b"logni", b"ftp"]
KINDS = [b"auth"] * 6 + [b"account"] * 3 + [b"password", b"session", b"AUTH", b"auht"]


class Stacks(policies.Policies):
    """A source of hosts."""

    def rule(self):
        control = self.of(ENDINGS) if self.random.random() < 0.5 else self.of(policies.LINES)
        return self.of(policies.KINDS) + b" " + control + b" " + self.of(MODULES)

    def words(self):
        """The service, the kind, and what is known, with the files that are named."""
        given, files = self.knowledge()
        if b"--fail-on" in given:
            at = given.index(b"--fail-on")
            given = given[:at] + given[at + 2:]
        return [self.of(SERVICES), self.of(KINDS) if self.random.random() < 0.9 else b"auth", *given], files


def cases(count):
    """A number of cases. The words after the kind are those of the source and of what is known."""
    drawing = Stacks(drawn.SEED)
    for number in range(count):
        host = drawing.host()
        folder = hosts.folder(policies.lines_of(host))
        words, files = drawing.words()
        if number % 8 == 7:
            yield ["needs", *words, b"--conf", b"pam.conf"], {"pam.conf": pairs.single(host), **files}
        elif number % 8 == 6:
            yield ["needs", *words, b"--root", b"r"], {"r": {"etc": {"pam.d": folder}}, **files}
        else:
            yield ["needs", *words, b"--dir", b"d"], {"d": folder, **files}
