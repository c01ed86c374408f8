"""What `needs` says of drawn stacks, and of large ones.

Of the drawn ones each answer is the plain reading's. Given to `policy` as a policy, with the same source and knowledge, nothing is found of it. And of stacks
that have few runs, each rule is looked for in all of these, one by one, and so is each single name that no rule says to be needed.

Large ones, of many names or over the largest graphs, are answered in time and with little memory, what follows from the stack, and nothing
is found of it either."""
import re
import time

from hostile.policies import MOST_MEMORY
from hostile.running import Answer, Difference, agrees, difference
from hostile.worst import GRAPHS, STACK
from model import host, needs, plain, policies, policy_text, said, stacks

MOST_RUNS = 3000
EVENT = re.compile(rb"([^][=]+)(?:\[([^]]+)\])?(=any)?")
NOTHING = b"checked %s, %s: 0 errors, 0 warnings, 0 notes\n"
# Of answers that have rules, so many have to be looked at in all runs.
LEAST_LOOKED_AT = 0.5


def runs(stack):
    """All runs of a stack: the modules that are asked, with their answers, and the decision. `None` if there are too many."""
    found, left = [], [([], [(stack.items, stacks.START)], stacks.START)]
    while left:
        steps, lists, state = left.pop()
        module, lists = stacks.next_module(lists, state)
        if module is None:
            found.append((steps, lists))
        else:
            left += [(steps + [(module, code)], *stacks.answered(module, lists, state, code)) for code in stack.answers[module.number - 1]]
        if len(found) + len(left) > MOST_RUNS:
            return None
    return found


class Runs:
    """The runs of a stack, and what happens in them."""

    def __init__(self, stack, found):
        self.stack = stack
        self.all = [steps for steps, _ in found]
        self.letting_in = [steps for steps, decision in found if decision in stack.decisions(b"succeeds")]

    def lets_go_on(self, module, code):
        of_class, _ = host.fact(module.path, tuple(module.arguments), self.stack.facts) or host.UNKNOWN
        return code in policy_text.SUCCESSES or code == b"ignore" and (self.stack.kind != b"auth" or of_class in ("passes", "fails"))

    def happens(self, word, steps, is_strict, does):
        """Whether an event happens in a run, where a module does so."""
        name, argument, _ = EVENT.fullmatch(word).groups()
        return any(policies.names(name, is_strict, module.path) and (argument is None or argument in module.arguments) and does(module, code)
                   for module, code in steps)

    def is_needed(self, words):
        return all(any(self.happens(word, steps, True, (lambda *_: True) if word.endswith(b"=any") else self.lets_go_on) for word in words)
                   for steps in self.letting_in)

    def is_obeyed(self, word):
        return not any(self.happens(word, steps, False, lambda _, code: code in policy_text.FAILURE) for steps in self.letting_in)

    def is_always_asked(self, word):
        return all(self.happens(word, steps, True, lambda *_: True) for steps in self.all)

    def holds(self, words):
        """Whether a rule of these words holds."""
        verb, *rest = words
        if verb == b"needs":
            return self.is_needed(rest[::2])
        return self.is_obeyed(rest[0]) if verb == b"obeys" else self.is_always_asked(rest[1])


def judged(stack, text):
    """Whether a stack has few runs; a rule that does not hold in these, or a name that is needed and told by none, is raised."""
    found = runs(stack)
    if found is None:
        return False
    watched = Runs(stack, found)
    sentences = [line.split(b" ")[2:] for line in text.splitlines() if not line.startswith(b"# ")]
    wrong = [words for words in sentences if not watched.holds(words)]
    names = {needs.name_of(module.path) for module in stack.modules} - {None}
    untold = [name for name in sorted(names) if watched.is_needed([name]) and [b"needs", name] not in sentences]
    if wrong or watched.letting_in and untold:
        raise Difference("of all runs, these rules do not hold: %s; and these names are needed: %s" % (wrong, untold))
    if (b"# no way in\n" in text) != (not watched.letting_in):
        raise Difference("%d runs let in, and it says %r" % (len(watched.letting_in), text))
    return True


def kept(program, words, tree, text, answered):
    """The answer as a policy, with the same source and knowledge: nothing is found, unless a table that another stack reads has a fault."""
    asked = ["policy", "needs.policy", *words[3:]]
    tree = {**tree, "needs.policy": text}
    got = answered(program, asked, tree)
    rules = sum(not line.startswith(b"# ") for line in text.splitlines())
    nothing = Answer(NOTHING % (host.counted(rules, b"rule"), host.counted(min(rules, 1), b"stack")), b"", 0)
    if got.status != 4 and not agrees(nothing, got):
        raise difference(asked, tree, nothing, got)


def run(program, cases):
    """How many stacks were asked about, and how many of those with an answer had all of their runs looked at."""
    count = answered = few = 0
    for words, tree in cases:
        count += 1
        got = program.check(words if count % 5 else [*words, "--json"], tree)
        if got.status or not count % 5:
            continue
        request = plain.Request([word if isinstance(word, bytes) else word.encode() for word in words])
        request.answer(tree)
        answered += 1
        few += judged(request.stack, got.stdout)
        kept(program, words, tree, got.stdout, type(program).check)
    if few < LEAST_LOOKED_AT * answered:
        raise Difference("of %d stacks only %d had few runs" % (answered, few))
    return count, "%d answers were policies, and of %d all runs were looked at" % (answered, few)


# Large stacks

NAMES = [b"m%d" % number for number in range(32)]
ASKED = ["needs", "login", "auth", "--dir", "d"]
# Some 300 rules are judged of 32 names, each over a graph of some 1,000 nodes. Twice as many names take four times as long at least.
MOST_SECONDS = 20
ANY_OF_ALL = b" or ".join(NAMES)


def lines(sentence, names):
    return b"".join(b"login auth %s %s\n" % (sentence, name) for name in names)


def stack_of(control):
    return {"login": b"".join(b"auth %s %s.so\n" % (control, name) for name in NAMES)}


# Stacks of modules of which nothing is known, and what holds of them. One at least has to succeed, since all may ignore; the last of
# those that are sufficient is obeyed, since it is asked where no other succeeded.
HEADER = b"# login auth 32 modules\n"
LARGE = {
    "required": (stack_of(b"required"), HEADER + lines(b"needs", [ANY_OF_ALL]) + lines(b"obeys", NAMES) + lines(b"always asks", NAMES)),
    "sufficient": (stack_of(b"sufficient"), HEADER + lines(b"needs", [ANY_OF_ALL]) + lines(b"obeys", NAMES[-1:]) + lines(b"always asks", NAMES[:1])),
}
TOO_LARGE = Answer(b"", b"pamcheck: E19 TooManyStates: %s\n" % said.TOLD["E19"], 3)


def in_time(program, words, tree):
    """The answer, in time and with no more memory than that."""
    program.hold(tree)
    begin = time.monotonic()
    got, memory = program.measured(STACK, words)
    seconds = time.monotonic() - begin
    if memory > MOST_MEMORY or seconds > MOST_SECONDS:
        raise Difference("%s: %d bytes of memory, %.1f seconds" % (words, memory, seconds))
    return got


def large(program):
    """How many large stacks were asked about."""
    folders = {**{name: (folder, Answer(text, b"", 0)) for name, (folder, text) in LARGE.items()},
               **{name: (folder, TOO_LARGE if name == "65,537 places" else None) for name, folder in GRAPHS.items()}}
    for folder, expected in folders.values():
        tree = {"d": folder}
        got = in_time(program, ASKED, tree)
        if expected and not agrees(expected, got) or not expected and got.status:
            raise difference(ASKED, {}, expected or Answer(b"rules", b"", 0), got)
        if got.status == 0:
            kept(program, ASKED, tree, got.stdout, in_time)
    return len(folders)
