"""The modules that guard a login, and that one of two stacks alone has, read plainly from `docs/SPECIFICATION.md`."""
from model import host

GATES = {b"pam_nologin", b"pam_access", b"pam_time", b"pam_wheel"}
WORDS = {"counts": b"counts failed logins", "checks": b"checks who logs in", "refuses": b"may refuse a login"}


def guard(module, kind, side):
    """How a module of a configuration guards a login; `None` if it does not."""
    name = host.module_name(module.path)
    of_class, codes = host.fact(module.path, tuple(module.arguments), side.facts) or host.UNKNOWN
    if not side.is_there(module) or codes.get(kind) == {b"module_unknown"}:
        return None
    if kind == b"auth" and name == b"pam_faillock" and b"authfail" in module.arguments:
        return "counts"
    if kind == b"auth" and of_class in ("checks", "ignores"):
        return "checks"
    return "refuses" if kind != b"password" and name in GATES else None


def lines(pair, head, kind, sides):
    """A line for each of them: of the old stack, and then of the new one."""
    matched = pair.matched.keys(), pair.matched.values()
    for side, change, configuration in ((0, b"removed", b"old"), (1, b"added", b"new")):
        for module in pair.modules[side]:
            found = module.number not in matched[side] and guard(module, kind, sides[side])
            if found:
                words = head, change, pair.module_text(side, module.number), WORDS[found], configuration, host.shown(module.file), module.line
                yield b"%s %s: %s, which %s (%s %s:%d)\n" % words
