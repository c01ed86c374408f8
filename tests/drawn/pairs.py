"""Pairs of configurations, the second of which is the first after one to three edits, drawn with a fixed seed."""

from drawn import files as drawn
from hostile import beside

LINES = [b"required", b"requisite", b"sufficient", b"optional", b"[success=1 default=ignore]", b"[success=2 default=ignore]",
         b"[success=done default=die]", b"[success=ok new_authtok_reqd=ok ignore=ignore default=bad]", b"[default=reset]"]
MODULES = [b"a.so", b"b.so", b"c.so", b"d.so x", b"d.so y", b"pam_deny.so", b"pam_permit.so", b"pam_faillock.so authfail", b"pam_nologin.so",
           b"pam_wheel.so"]
CODES = [b"success", b"auth_err", b"perm_denied", b"user_unknown", b"ignore", b"new_authtok_reqd"]
JUMPS = {b"=1": b"=2", b"=2": b"=1", b"=done": b"=ok", b"=die": b"=bad"}


class Pairs(drawn.Drawing):
    """A source of pairs."""

    def rule(self):
        control = self.of(LINES) if self.random.random() < 0.7 else beside.control(self)
        return self.of([b"auth", b"auth", b"auth", b"account"]) + b" " + control + b" " + self.of(MODULES)

    def lines(self, targets, most):
        rules = [self.rule() for _ in range(self.random.randint(1, most))]
        if targets and self.random.random() < 0.4:
            rules.insert(self.random.randint(0, len(rules)), self.follow(targets))
        return rules

    def follow(self, targets):
        return b"auth " + self.of([b"include ", b"substack "]) + self.of(targets)

    def files(self, most):
        files = {b"login": self.lines([b"one"], most), b"one": self.lines([], most - 1)}
        for name in (b"other", b"su"):
            if self.random.random() < 0.4:
                files[name] = self.lines([b"one"], 2)
        return files

    def edit(self, files):
        """One edit of a file."""
        lines = files[self.of([*sorted(files), b"login", b"login", b"one"])] if b"login" in files else files[b"one"]
        at = self.random.randrange(len(lines)) if lines else 0
        chosen = self.of([0, 0, 1, 1, 2, 2, 2, 3, 3, 4, 4, 5, 6, 7]) if lines else 0
        if chosen == 0:
            lines.insert(at, self.rule())
        elif chosen == 1:
            del lines[at]
        elif chosen == 2:
            other = self.random.randrange(len(lines))
            lines[at], lines[other] = lines[other], lines[at]
        elif chosen == 3:
            lines[at] = b" ".join([lines[at].split(b" ")[0], self.of(LINES), lines[at].split(b" ")[-1]])
        elif chosen == 4:
            old = self.of(sorted(JUMPS))
            lines[at] = lines[at].replace(old, JUMPS[old])
        elif chosen == 5:
            lines[at] = lines[at] + self.of([b" z", b" x", b""])
        elif chosen == 6:
            lines[at] = self.follow([b"one"] * 6 + [b"su", b"gone", b"login"])
        else:
            self.file(files)

    def file(self, files):
        """A file more, or one less."""
        name = self.of([b"new", b"su", b"other", b"login"])
        if name in files and len(files) > 2:
            del files[name]
        else:
            files[name] = self.lines([b"one"], 2)

    def modules(self):
        """A folder with most of the modules."""
        return {name.split(b" ")[0].decode(): b"" for name in MODULES if self.random.random() < 0.8}

    def returns(self, more):
        names = [name.split(b" ")[0] for name in MODULES]
        lines = [name + b" " + b" ".join(self.random.sample(CODES + more, self.random.randint(1, 3))) for name in names]
        return b"".join(line + b"\n" for line in lines)

    def pair(self, most):
        """Two configurations, the files of which have so many lines at most."""
        old = self.files(most)
        new = {name: list(lines) for name, lines in old.items()}
        for _ in range(self.random.randint(1, 3)):
            self.edit(new)
        return old, new


def folder(files):
    return {name.decode(): b"".join(line + b"\n" for line in lines) for name, lines in files.items()}


def single(files):
    return b"".join(name + b" " + line + b"\n" for name, lines in files.items() for line in lines)


def cases(count):
    """A number of cases: the words after OLD and NEW, the two sources and further files."""
    drawing = Pairs(drawn.SEED)
    for number in range(count):
        is_known = number % 16 != 0
        old, new = drawing.pair(4 if is_known else 2)
        words, files = drawing.of([[]] * 4 + [[b"login"], [b"LOGIN", b"Auth"], [b"gone"], [b"su", b"account"]]), {}
        if is_known:
            # What a module that is not there answers, one that is can answer too.
            more = [b"module_unknown"] if number % 8 == 7 else []
            words, files = words + [b"--returns", b"returns"], {"returns": drawing.returns(more)}
        if number % 16 == 3:
            words = words + [b"--set", drawing.of(MODULES).split(b" ")[0] + b"=" + drawing.of([b"success", b"auth_err", b"but:success,ignore"])]
        if number % 4 == 0:
            words = words + [b"--modules", b"m"]
            files["m"] = drawing.modules()
        if number % 16 == 1:
            words, files = words + [b"--facts", b"facts"], {**files, "facts": b"a passes auth success ignore\nb checks auth auth_err\n"}
        if number % 8 < 6:
            yield words, folder(old), folder(new), files
        elif number % 8 == 6:
            yield words + [b"--conf"], single(old), single(new), files
        else:
            roots = [{"etc": {"pam.d": folder(side)}, "lib": {"security": drawing.modules()}} for side in (old, new)]
            yield words + [b"--root"], *roots, files
