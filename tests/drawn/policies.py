"""Policies over small hosts, drawn with a fixed seed: every form of a rule, words that are spelled wrong, and rules with a fault."""

from drawn import files as drawn
from drawn import hosts, pairs
from hostile import beside

SERVICES = [b"login", b"sshd", b"su", b"su-l", b"other", b"common-auth"]
LINES = [*pairs.LINES, b"[success=ok auth_err=reset default=ignore]", b"[new_authtok_reqd=done default=die]"]
MODULES = [b"pam_unix.so", b"pam_unix.so", b"pam_unix.so nullok", b"pam_unix.so remember=5 yescrypt", b"pam_faillock.so preauth deny=3",
           b"pam_faillock.so authfail deny=3 deny=9", b"pam_u2f.so", b"pam_u2f.so nouserok", b"pam_deny.so", b"pam_permit.so", b"pam_rootok.so",
           b"pam_wheel.so", b"pam_own.so", b"pam_own.so deny=-2", b"pam_sss.so", b"/opt/pam_u2f.so", b"/usr/lib/security/pam_unix.so",
           b"../security/pam_u2f.so", b"pam_access.so", b"pam_time.so", b"pam_unix", b"/opt/pam_own.so x", b"pam_nologin.so"]
KINDS = [b"auth"] * 5 + [b"account"] * 2 + [b"password", b"session", b"-auth"]
TOKENS = [b"login", b"sshd", b"su", b"su-l", b"su*", b"*", b"*", b"*-l", b"l*n", b"common-*", b"other", b"!su", b"!*-l", b"!common-*"] * 3
TOKENS += [b"SSHD", b"gdm*", b"logni", b"ftp"]
WRONG_TOKENS = [b"", b"!", b"a**", b"*a*", b"a/b", b"!!su", b"s!", b"!su"]
WORDS_OF_KINDS = [b"auth"] * 6 + [b"*", b"account", b"auth,account", b"session,auth", b"PASSWORD,auth", b"auth,auth", b"session"]
WRONG_KINDS = [b"", b"*,auth", b"auht", b"auth,", b"-auth", b"auth account", b"needs"]
NAMES = [b"pam_unix", b"pam_unix", b"pam_unix.so", b"pam_u2f", b"pam_u2f", b"pam_faillock", b"pam_wheel", b"pam_rootok", b"pam_own", b"pam_deny",
         b"pam_permit", b"pam_sss", b"pam_nologin", b"pam_access", b"pam_time", b"pam_limits"] * 2
NAMES += [b"/opt/pam_u2f.so", b"/usr/lib/security/pam_unix.so", b"pam_faillok", b"pam_unixx", b"pam_nothing", b"/opt/pam_gone.so", b"opt/pam_own.so",
          b"pam_uix.so"]
TESTS = [b"[nullok]", b"[!nullok]", b"[deny>5]", b"[deny<=3]", b"[deny<0]", b"[deny>=-2]", b"[!deny<9]", b"[deny=]", b"[!deny=]", b"[deny=3]", b"[preauth]",
         b"[authfail]", b"[remember<24]", b"[!yescrypt][!sha512]", b"[nulok]", b"[remembr=]", b"[preauht]", b"[nouserok]", b"[x]", b"[d<]", b"[deny<1234567890]",
         b"[deny=<3]", b"[dney>1]", b"[!!nullok]", b"[a,b]", b"[deny<-0]"]
WRONG_TESTS = [b"[", b"[]", b"[!]", b"[a]b", b"]", b"[a", b"[a]]", b"[a][]", b"a[b]c"]
CODES = [b"success", b"failure", b"any", b"ignore", b"but:success", b"auth_err,perm_denied", b"but:failure", b"SUCCESS,New_Authtok_Reqd", b"but:ignore,failure",
         b"failure,success", b"but:success,new_authtok_reqd,failure", b"authinfo_unavail", b"but:authinfo_unavail"]
WRONG_CODES = [b"", b"succes", b"but:", b"any,success", b"but:any", b"but:failure,success,ignore,new_authtok_reqd", b"success,", b"=success", b"BUT:x"]
VERBS = [b"requires", b"Needs", b"need", b"obey", b"ask", b"always", b"never", b"can", b"with", b"before", b"succeeds"]
WRONG_WORDS = [b"or", b"and", b"with", b"without", b"before", b"#", b"pam_unix", b"=any", b"never", b"or=any"]
FACT_LINES = [b"pam_own checks auth success ignore", b"pam_own passes", b"pam_unix ignores", b"pam_u2f checks auth success auth_err ignore", b"# none", b"pam_sss fails",
              b"pam_nothing passes", b"pam_own deny= fails auth auth_err", b"pam_x.so passes", b"pam_permit checks auth ignore"]
BLANKS = [b" "] * 9 + [b"\t", b"  ", b" \r"]


class Policies(pairs.Pairs):
    """A source of hosts and policies. `called` has the names of the modules of the last host."""

    def __init__(self, seed):
        super().__init__(seed)
        self.called = NAMES

    def rule(self):
        control = self.of(LINES) if self.random.random() < 0.7 else beside.control(self)
        return self.of(KINDS) + b" " + control + b" " + self.of(MODULES)

    def follow(self, targets):
        return self.of([b"auth", b"auth", b"account"]) + b" " + self.of([b"include ", b"substack "]) + self.of(targets)

    def host(self):
        """Files as lines, at times with a fault."""
        files = {b"common-auth": self.lines([], 3)}
        for name in SERVICES[:5]:
            if self.random.random() < 0.8:
                files[name] = self.lines([b"common-auth"], 3)
        if self.random.random() < 0.1:
            self.of(list(files.values())).append(self.of([b"auth requird pam_unix.so", b"auth include gone", b"auht required pam_unix.so", b"@include login"]))
        if self.random.random() < 0.05:
            files[self.of([b"Login", b"su~", b".x"])] = self.lines([], 2)
        paths = [word for lines in files.values() for line in lines for word in line.split(b" ") if word.endswith(b".so")]
        self.called = [path.rpartition(b"/")[2].removesuffix(b".so") for path in paths] or NAMES
        return files

    # Rules

    def event(self, needs_codes=False):
        word = self.of(NAMES) if self.random.random() < 0.3 else self.of(self.called)
        if self.random.random() < 0.3:
            word += self.of(TESTS)
        if needs_codes or self.random.random() < 0.25:
            word += b"=" + self.of(CODES)
        chance = self.random.random()
        if chance < 0.005:
            word = self.of(WRONG_WORDS)
        elif chance < 0.01:
            word = self.of(NAMES) + self.of(WRONG_TESTS)
        elif chance < 0.015:
            word = self.of(NAMES) + b"=" + self.of(WRONG_CODES)
        elif chance < 0.02 and needs_codes:
            word = word.partition(b"=")[0]
        return word

    def events(self, needs_codes=False, joints=(b"or", b"and")):
        """A list of events."""
        words = [self.event(needs_codes)]
        joint = self.of(joints)
        for _ in range(self.of([0, 0, 0, 0, 1, 1, 2, 3, 4] if self.random.random() < 0.5 else [0, 1])):
            words += [joint if self.random.random() < 0.99 else self.of([b"or", b"and"]), self.event(needs_codes)]
        return words

    def condition(self):
        """What follows `never` and `can`."""
        chosen = self.random.random()
        if chosen < 0.25:
            return [self.of([b"ask", b"asks"]), *self.events()]
        ending = [self.of([b"succeeds", b"succeed", b"fails", b"fail", b"end", b"ends", b"decides", b"decide"])]
        if ending[0].startswith(b"decide"):
            ending.append(self.of(CODES) if self.random.random() < 0.97 else self.of(WRONG_CODES))
        if self.random.random() < 0.6:
            ending += [b"with", *self.events(True)]
        if self.random.random() < 0.6:
            ending += [b"without", *self.events(True)]
        return ending

    def sentence(self):
        chosen = self.random.random()
        if chosen < 0.2:
            return [b"needs", *self.events()]
        if chosen < 0.35:
            return [b"obeys", *self.events(joints=(b"and",) * 19 + (b"or",))]
        if chosen < 0.45:
            return [b"always"] * self.of([0, 1]) + [b"asks", *self.events()]
        if chosen < 0.55:
            return [b"asks", *self.events(), b"before", *self.events()]
        if chosen < 0.56:
            return [self.of(VERBS), *self.events()]
        return [self.of([b"never", b"can"]), *self.condition()]

    def words(self):
        """The words of a rule."""
        tokens = self.some(TOKENS, 1, 2) if self.random.random() < 0.99 else self.some(WRONG_TOKENS, 1, 2)
        tokens = tokens if any(not token.startswith(b"!") for token in tokens) else [b"*", *tokens]
        kinds = self.of(WORDS_OF_KINDS) if self.random.random() < 0.99 else self.of(WRONG_KINDS)
        words = [b",".join(tokens), kinds, *self.sentence()]
        chance = self.random.random()
        if chance < 0.01:
            return words[:self.random.randint(1, len(words))]
        return words + [self.of(WRONG_WORDS)] * (chance > 0.995)

    def policy(self, most):
        """The text of a policy, in which faults are seldom."""
        lines = []
        for _ in range(self.random.randint(1, most)):
            lines.append(b"".join(word + self.of(BLANKS) for word in self.words()) + self.of([b"", b"", b"# why", b"\r"]))
            lines += [self.of([b"", b"# none", b" \t"])] * self.of([0, 0, 0, 1])
        return b"\n".join(lines) + self.of([b"\n", b"\n", b"", b"\0"] if self.random.random() < 0.1 else [b"\n"])

    # What is given besides

    def knowledge(self):
        """Words that say what is known, and the files that they name."""
        words, files = [], {}
        if self.random.random() < 0.2:
            words += [b"--set", self.of(self.called) + b".so=" + self.of([b"success", b"auth_err,ignore", b"but:success", b"any", b"but:ignore"])]
        if self.random.random() < 0.02:
            words += [b"--set", self.of([b"pam_gone.so=any", b"pam_unix.so", b"=any", b"pam_unix.so=succes", b"1=success"])]
        if self.random.random() < 0.2:
            words += [b"--modules", b"m"]
            names = [name.split(b" ")[0].decode() for name in MODULES if b"/" not in name]
            files["m"] = {name: b"" for name in names if self.random.random() < 0.8}
        if self.random.random() < 0.2:
            words += [b"--facts", b"facts"]
            files["facts"] = b"".join(line + b"\n" for line in self.some(FACT_LINES, 1, 3))
        if self.random.random() < 0.2:
            words += [b"--returns", b"returns"]
            lines = [self.of(MODULES).split(b" ")[0] + b" " + b" ".join(self.some(pairs.CODES, 1, 3)) for _ in range(2)]
            files["returns"] = b"".join(line + b"\n" for line in lines if b"/" not in line or self.random.random() < 0.1)
        if self.random.random() < 0.15:
            words += [b"--access", b"access", b"--user", self.of([b"root", b"alice"]), b"--rhost", b"10.0.0.1"]
            files["access"] = self.of([b"+:root:ALL\n-:ALL:ALL\n", b"-:root:ALL\n", b"-:ALL\n", b"-:ALL:sshd\n"])
        if self.random.random() < 0.1:
            words += [b"--time", b"time", b"--at", self.of([b"2024-05-06T07:59", b"2024-05-06T07:59", b"2024-05-11T12:00", b"2024-02-30T00:00"])]
            words += [] if b"--user" in words else [b"--user", b"alice"]
            files["time"] = self.of([b"*;*;alice;Wk0800-1800\n", b"su*;*;*;!Al0000-2400\n", b"*;*;x\n"])
        if self.random.random() < 0.4:
            words += [b"--fail-on", self.of([b"note", b"warning", b"error", b"error", b"Error"][:self.of([4, 4, 4, 5])])]
        return words, files


def cases(count):
    """A number of cases."""
    drawing = Policies(drawn.SEED)
    for number in range(count):
        host = drawing.host()
        words, files = drawing.knowledge()
        named = [b"one.policy"]
        files["one.policy"] = drawing.policy(4)
        if number % 8 == 0:
            named.append(b"two.policy")
            files["two.policy"] = drawing.policy(2)
        if number % 16 == 5:
            given, candidates = drawing.candidates([b"login", b"sshd", b"su", b"new"], 1, lambda: hosts.folder(lines_of(drawing.host()))["common-auth"])
            words, files = words + given, {**files, **candidates}
        if number % 8 == 7 and not any(word.startswith(b"--with") for word in words):
            yield ["policy", *named, *words, b"--conf", b"pam.conf"], {"pam.conf": pairs.single(host), **files}
        elif number % 8 == 6:
            yield ["policy", *named, *words, b"--root", b"r"], {"r": {"etc": {"pam.d": hosts.folder(lines_of(host))}}, **files}
        else:
            yield ["policy", *words, b"--dir", b"d", *named], {"d": hosts.folder(lines_of(host)), **files}


def lines_of(files):
    return {name: b"".join(line + b"\n" for line in lines) for name, lines in files.items()}
