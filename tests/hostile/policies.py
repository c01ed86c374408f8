"""The worst policies: as many rules as there may be, over many services and over the largest graphs, and files of 1 MiB.

The plain reading would take too long for most of them, so what is expected is told on from fewer rules, or follows from the stack. Each
run has to end in time, on a small stack, with little memory."""
import time

from hostile.running import Answer, Difference, agrees, difference
from hostile.worst import GRAPHS, STACK, STACKS, filled
from model import plain
from model import said as refusals
from model.faults import MOST_BYTES

MOST_SECONDS = 10
MOST_MEMORY = 200 * 2 ** 20
MOST_RULES = 1000
SERVICES = 40
WORDS = ["policy", "p", "--dir", "d"]
# What the graphs of stacks of `a.so` can do, and cannot: four events have to happen together.
OF_GRAPHS = b"""login auth can ask a=success and a=auth_err and a=perm_denied and a=ignore
login auth never asks a=success and a=auth_err and a=perm_denied and pam_deny
login auth always asks a
login auth can fail with a=ignore
"""
TOO_LARGE = b"p:%d: error: P6 NotKnown: \"%s\" is not known to hold: its runs come to more than 65536 places (auth; login)\n"
HOLDS = b"checked %d rules, %d stacks: 0 errors, 0 warnings, 0 notes\n"
REQUIRED = {"login": b"".join(b"auth required m%d.so\n" % number for number in range(255)) + b"auth required pam_unix.so\n"}
# The rules of services, each of which is another stack.
SERVICE = b"""auth required m%d.so
auth [success=1 default=ignore] pam_unix.so nullok
auth requisite pam_deny.so
auth required pam_permit.so
account required pam_unix.so
session required pam_limits.so
"""
RULES = [b"* * never asks pam_unix[nullok]", b"* auth needs pam_unix", b"*,!s07 auth obeys pam_unix and pam_permit", b"* session always asks pam_limits",
         b"* auth asks pam_unix before pam_permit or pam_deny", b"* auth,account can succeed with pam_unix=success"]
SMALL = {"d": {"login": b"auth required pam_unix.so\n"}}
# What a policy of 1 MiB begins with, what is repeated, and what it ends with; and how many rules it has, or its fault.
TEXTS = [(b"", b"#", b"", 0), (b"", b"#\n", b"", 0), (b"", b"\n", b"", 0), (b"", b" \t\r", b"", 0), (b"login auth needs pam_unix #", b"x", b"", 1),
         (b"", b"\0", b"", "TE10 NulByte p:1"), (b"", b"a", b"", "TE1 MissingField p:1"), (b"", b"a,", b"a auth", "TE1 MissingField p:1"),
         (b"", b"*", b" auth needs a", "TE17 BadServices p:1"), (b"login ", b"auth,", b"auth needs pam_unix", 1), (b"login ", b"a", b"", "TE18 BadKinds p:1"),
         (b"login auth ", b"a", b"", "TE19 BadVerb p:1"), (b"login auth needs ", b"[", b"", "TE20 BadEvent p:1"), (b"login auth needs ", b"a", b"[", "TE20 BadEvent p:1"),
         (b"login auth needs pam_unix=", b"success,", b"success", 1), (b"login auth needs pam_unix=", b"a", b"", "TE13 BadCode p:1"),
         (b"login auth never asks ", b"pam_deny or ", b"pam_deny", 1), (b"login auth needs ", b"pam_unix and ", b"pam_unix", 1),
         (b"login auth needs pam_unix or ", b"pam_unix or ", b"or", "TE20 BadEvent p:1"), (b"login auth never asks pam_deny", b"[x]", b"", 1),
         (b"login auth never asks pam_deny[", b"9", b"<9]", 1), (b"login auth never asks pam_deny[a<", b"9", b"]", 1),
         (b"", b"login auth never asks pam_deny\n", b"", "TE24 TooManyRules p:1001"), (b"login auth needs pam_unix ", b"pam_unix ", b"", "TE23 ExtraWord p:1")]


def judged(program, tree, expected):
    """The answer has to be the expected one, in time and with no more memory than that."""
    program.hold(tree)
    begin = time.monotonic()
    got, memory = program.measured(STACK, WORDS)
    seconds = time.monotonic() - begin
    if not agrees(expected, got):
        short = {name: data[:300] for name, data in tree.items() if isinstance(data, bytes)}
        raise difference(WORDS, short, expected._replace(stdout=expected.stdout[:3000]), got._replace(stdout=got.stdout[:3000]))
    if memory > MOST_MEMORY or seconds > MOST_SECONDS:
        raise Difference("%s: %d bytes of memory, %.1f seconds" % (tree["p"][:200], memory, seconds))


def holding(rules, stacks):
    """The answer where all rules hold."""
    text = HOLDS % (rules, stacks)
    return Answer(text.replace(b"1 rules", b"1 rule").replace(b" 1 stacks", b" 1 stack") if rules == 1 or stacks == 1 else text, b"", 0)


def told_on(few, rules, times):
    """The answer for so many times these rules, one after another."""
    *found, last = few.stdout.splitlines(True)
    text = b""
    for time_ in range(times):
        for line in found:
            place, number, rest = line.split(b":", 2)
            text += b"%s:%d:%s" % (place, int(number) + time_ * rules, rest)
    counts = last.replace(b"checked %d rules" % rules, b"checked %d rules" % (rules * times))
    errors = sum(b": error: " in line for line in found)
    counts = counts.replace(b": %d errors" % errors, b": %d errors" % (errors * times))
    return few._replace(stdout=text + counts)


def many_rules(program):
    """1,000 rules over many services: those that hold, and those that are broken at each of them."""
    host = {"s%02d" % number: SERVICE % number for number in range(SERVICES)}
    runs = 0
    for rule in RULES:
        tree = {"d": host, "p": (rule + b"\n") * 2}
        few = Answer(*plain.answer(WORDS, tree))
        judged(program, {**tree, "p": (rule + b"\n") * MOST_RULES}, told_on(few, 2, MOST_RULES // 2))
        runs += 1
    return runs


def graphs(program):
    """Four events together over the largest graphs, and 1,000 rules over one of 7,906 nodes."""
    rules = OF_GRAPHS.count(b"\n")
    for name, folder in {**STACKS, **GRAPHS}.items():
        expected = holding(rules, 1)
        if name == "65,537 places":
            lines = [TOO_LARGE % (number, rule) for number, rule in enumerate(OF_GRAPHS.splitlines(), 1)]
            expected = Answer(b"".join(lines) + b"checked %d rules, 1 stack: %d errors, 0 warnings, 0 notes\n" % (rules, rules), b"", 1)
        judged(program, {"d": folder, "p": OF_GRAPHS}, expected)
    judged(program, {"d": REQUIRED, "p": b"login auth needs pam_unix=any\n" * MOST_RULES}, holding(MOST_RULES, 1))
    return len({**STACKS, **GRAPHS}) + 1


def texts(program):
    """Policies of 1 MiB, and of a byte more."""
    for front, piece, back, said in TEXTS:
        rules = said if isinstance(said, int) else 0
        expected = holding(rules, rules) if isinstance(said, int) else Answer(b"", b"pamcheck: %s: %s\n" % (said.encode(), refusals.OF_POLICY[said.split()[0]]), 4)
        judged(program, {**SMALL, "p": filled(front, piece, back)}, expected)
    judged(program, {**SMALL, "p": b"#" * (MOST_BYTES + 1)}, Answer(b"", b"pamcheck: TE12 TableTooLong p:0: %s\n" % refusals.OF_POLICY["TE12"], 4))
    return len(TEXTS) + 1


def run(program):
    """How many policies were judged."""
    return many_rules(program) + graphs(program) + texts(program)
