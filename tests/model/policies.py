"""What the stacks of a host say of the rules of policies, read plainly from `docs/SPECIFICATION.md`.

A rule is judged by trying all codes at each module that is asked, and by what has happened where the run ends. What is tried is kept by
the place of a run and by what has happened there, since the rest depends on nothing else."""
import sys

from model import compare, host, json_lines, outcomes, spelling, stacks
from model import policy_text as text
from model.faults import NAMES, Fault

sys.setrecursionlimit(20000)

NAMES_OF_FINDINGS = {"P1": "Broken", "P2": "Impossible", "P3": "NoService", "P4": "NoModule", "P5": "Idle", "P6": "NotKnown", "P7": "NoArgument"}
WARNINGS = ("P5", "P7")
RANK = {code: at for at, code in enumerate(compare.USUAL)}
IN_ACCOUNT = {b"success", b"new_authtok_reqd"}


class TooLarge(Exception):
    """The runs of a stack come to too many places."""


def possible(module, kind, facts):
    """The codes that a module can answer that is there. In `auth` one of which a row says that it checks does not ignore."""
    codes = host.possible(module, kind, facts)
    of_class, _ = host.fact(module.path, tuple(module.arguments), facts) or (None, None)
    return codes - {b"ignore"} or {b"auth_err"} if kind == b"auth" and of_class == "checks" else codes


# A rule at a stack

class Stack:
    """An accepted stack, and the codes that each of its modules can answer."""

    def __init__(self, kind, items, modules, answers, facts):
        self.kind = kind
        self.items = items
        self.modules = modules
        self.answers = answers
        self.facts = facts

    def speaks_of(self, event, is_strict, module):
        return names(event.name, is_strict, module.path) and all(text.holds(test, module.arguments) for test in event.tests)

    def codes(self, event, is_strict, module):
        """The answers of a module by which an event happens."""
        if not self.speaks_of(event, is_strict, module):
            return frozenset()
        if event.codes != text.LETS_GO_ON:
            return event.codes
        of_class, _ = host.fact(module.path, tuple(module.arguments), self.facts) or host.UNKNOWN
        may_ignore = self.kind != b"auth" or of_class in ("passes", "fails")
        return frozenset(text.SUCCESSES | ({b"ignore"} if may_ignore else set()))

    def at_modules(self, part, is_strict):
        """For each module, by number, and each answer: the events of a part that happen then, by position."""
        events = part[1] if part else ()
        by_module = {}
        for module in self.modules:
            happening = [(at, self.codes(event, is_strict, module)) for at, event in enumerate(events)]
            by_module[module.number] = {code: frozenset(at for at, codes in happening if code in codes) for code in stacks.CODES}
        return by_module

    def decisions(self, ending):
        """The decisions of an ending."""
        good = IN_ACCOUNT if self.kind == b"account" else {b"success"}
        return {b"succeeds": good, b"fails": text.ANY - good, b"ends": text.ANY}[ending] if isinstance(ending, bytes) else ending


def names(name, is_strict, path):
    """Whether a name is that of the module at a path."""
    def without_so(file):
        return file[:-3] if file.endswith(b".so") else file

    if b"/" in name:
        return path == name
    if is_strict:
        return host.module_name(path) == without_so(name)
    return without_so(path.rpartition(b"/")[2]) == without_so(name)


class Trial:
    """What is watched of the runs of a stack: `step` gives what has happened after an answer, and `is_met` whether that is what is looked
    for, where a run decides a code."""

    def __init__(self, stack, first, step, is_met):
        self.stack = stack
        self.first = first
        self.step = step
        self.is_met = is_met
        self.known = {}

    def run(self):
        """The run that is shown: of those that ask the fewest modules the one whose answers come first, as pairs of number and code, with
        the decision; `None` if there is no such run."""
        found = self.after([(self.stack.items, stacks.START)], stacks.START, self.first)
        return found and ([(number, code) for _, number, code in found[1]], found[2])

    def after(self, lists, state, happened):
        """The same from a place on: the count of modules, each with the rank of its answer, and the decision."""
        module, lists = stacks.next_module(lists, state)
        if module is None:
            return (0, [], lists) if self.is_met(lists, happened) else None
        place = stacks.place(module, lists, state), happened
        if place not in self.known:
            if len(self.known) > 64 * outcomes.MOST_PLACES:
                raise TooLarge
            best = None
            for code in self.stack.answers[module.number - 1]:
                found = self.after(*stacks.answered(module, lists, state, code), self.step(module.number, code, happened))
                if found:
                    more = found[0] + 1, [(RANK[code], module.number, code)] + found[1], found[2]
                    best = more if best is None else min(best, more)
            self.known[place] = best
        return self.known[place]


def are_there(part, happened):
    """Whether the events of a list happened, of which these did."""
    if part is None:
        return False
    joint, events = part
    return bool(happened) if joint == b"or" else len(happened) == len(events)


def trial(stack, rule):
    """What breaks a rule, or shows what can be."""
    helps = rule.sort == "can"
    wanted, barred = stack.at_modules(rule.with_, helps), stack.at_modules(rule.without, not helps)
    if rule.sort == "before":
        def step(number, code, happened):
            is_late, first = happened
            return is_late or bool(wanted[number][code]) and not are_there(rule.without, first), first | barred[number][code]

        return Trial(stack, (False, frozenset()), step, lambda decision, happened: happened[0])
    decisions = stack.decisions(rule.ending)
    joints = [part[0] if part else b"or" for part in (rule.with_, rule.without)]

    def step(number, code, happened):
        both = [had | now[number][code] for had, now in zip(happened, (wanted, barred))]
        # Of events of which one is enough, it does not matter which.
        return tuple(frozenset([0]) if joint == b"or" and found else found for joint, found in zip(joints, both))

    def is_met(decision, happened):
        return decision in decisions and (not rule.with_ or are_there(rule.with_, happened[0])) and not are_there(rule.without, happened[1])

    return Trial(stack, (frozenset(), frozenset()), step, is_met)


def can_happen(stack, rule):
    """Whether the events of a rule can happen, however the stack ends: those after `with`, or after `before`."""
    return trial(stack, rule._replace(sort="never", ending=b"ends", without=None)).run() is not None


def can_end(stack, rule):
    """Whether a stack can end as a rule says."""
    return trial(stack, rule._replace(with_=None, without=None)).run() is not None


# A host

class Host(host.Host):
    """The services of a configuration, and its stacks, where `answers` gives what modules of a stack can answer."""

    def __init__(self, files, there, facts, answers):
        self.form = files.form
        self.data = files.files
        self.files = files
        self.there = there
        self.facts = tuple(tuple(row) for row in facts)
        self.read = {name: self.read_file(name) for name in self.data}
        self.services = self.all_services() or [b"other"]
        self.calls = [rule for rules, _ in self.read.values() for rule in rules if rule.path is not None]
        self.places = {}
        self.stacks = {}
        for service in self.services:
            for kind in stacks.KINDS:
                self.places[service, kind] = self.class_of(service, kind, answers)

    def class_of(self, service, kind, answers):
        """The key of the class of a stack, which is kept with its fault or itself."""
        try:
            items, modules = stacks.resolve(self.files, service, kind)
        except Fault as fault:
            key = kind, fault.number, fault.place
            self.stacks.setdefault(key, fault)
            return key
        codes = answers(service, kind, modules)
        key = kind, compare.plain_items(items), tuple(frozenset(one) for one in codes)
        if key not in self.stacks:
            try:
                outcomes.outcomes(items, codes)
                self.stacks[key] = Stack(kind, items, modules, codes, self.facts)
            except Fault:
                self.stacks[key] = TooLarge()
        return key

    def module_names(self, is_strict):
        """The names of the modules that rules call, or of which there is a row."""
        called = [host.module_name(call.path) if is_strict else call.path.rpartition(b"/")[2].removesuffix(b".so") for call in self.calls]
        return [name for name in called if name is not None] + [row[0] for row in host.FACTS + self.facts]

    def has_module(self, event, is_strict):
        paths = [call.path for call in self.calls] + list(self.there or ())
        is_row = event.name.removesuffix(b".so") in [row[0] for row in host.FACTS + self.facts]
        return is_row or any(names(event.name, is_strict, path) for path in paths)

    def keys(self, event, is_strict):
        """The keys of the arguments that rules give to modules of an event's name."""
        return [text.key_of(word) for call in self.calls if names(event.name, is_strict, call.path) for word in call.arguments]


class Finding:
    """What is found of a rule: its sentence, by how names are shown, the stacks that meet it, and the decision and the steps of a run that
    breaks it."""

    def __init__(self, number, sentence, met=(), decision=None, steps=()):
        self.number = number
        self.name = NAMES_OF_FINDINGS[number]
        self.sentence = sentence
        self.met = list(met)
        self.decision = decision
        self.steps = steps
        self.level = 1 if number in WARNINGS else 2


def hint(near, show, otherwise=b""):
    return otherwise if near is None else b'; did you mean "%s"?' % show(near)


def wrong_service(name, near):
    return Finding("P3", lambda show: b'there is no service "%s"' % show(name) + hint(near, show, b"; mend the name, or leave it out"))


def wrong_module(name, near):
    more = b"" if b"/" in name else b", and none of this name is known"
    return Finding("P4", lambda show: b'no rule calls a module "%s"' % show(name) + more + hint(near, show))


def wrong_argument(name, key, near):
    return Finding("P7", lambda show: b'no rule of "%s" has an argument "%s"' % (show(name), show(key)) + hint(near, show))


def wrong_names(checked, rule):
    """P3, P4 and P7, each once of a word."""
    missing = dict.fromkeys(name for name in rule.wanted if b"*" not in name and name.lower() not in checked.services)
    for name in missing:
        yield wrong_service(name, spelling.nearest(checked.services, name.lower()))
    if not missing and not any(text.is_about(rule, service) for service in checked.services):
        yield Finding("P3", lambda show: b"the rule fits no service; mend its first word")
    told = set()
    for event, is_strict in text.placed_events(rule):
        if event.name not in told and not checked.has_module(event, is_strict):
            told.add(event.name)
            names_there = [] if b"/" in event.name else checked.module_names(is_strict)
            yield wrong_module(event.name, spelling.nearest(names_there, event.name.removesuffix(b".so")))
    told = set()
    for event, is_strict in text.placed_events(rule):
        keys = checked.keys(event, is_strict)
        for key in map(text.key_of_test, event.tests):
            near = spelling.nearest(keys, key)
            if key not in keys and near is not None and (event.name, key) not in told:
                told.add((event.name, key))
                yield wrong_argument(event.name, key, near)


def said_of_rule(number, rule, said, met=(), *run):
    """A finding of a rule as a whole."""
    return Finding(number, lambda show: b'"%s" ' % show(rule.text) + said(show), met, *run)


def broken(rule, stack, met, found):
    """P1, with the run that breaks the rule."""
    taken, decision = found
    steps = [(number, stack.modules[number - 1].path.rpartition(b"/")[2], code) for number, code in taken]

    def said(show):
        told = b", ".join(b"%d %s %s" % (number, show(module), code) for number, module, code in steps)
        return b"does not hold: %s decides %s %s" % (stack.kind, decision, b"where " + told if steps else b"and asks no module")

    return said_of_rule("P1", rule, said, met, decision, steps)


def not_known(rule, stack, met):
    """P6, of a stack that is refused or too large."""
    def said(show):
        if not isinstance(stack, Fault):
            return b"is not known to hold: its runs come to more than 65536 places"
        place = b"" if stack.place is None else b" " + show(stack.place)
        return b"is not known to hold: the stack is refused, %s %s" % (stack.number.encode(), NAMES[stack.number].encode()) + place

    return said_of_rule("P6", rule, said, met)


def idle(rule, known):
    """P5, of stacks at which nothing breaks the rule."""
    is_certain = rule.ending != b"ends"
    if rule.sort == "can" or not known:
        return
    about_events = rule.sort == "before" or rule.with_ and (is_certain or rule.without)
    if about_events and not any(can_happen(stack, rule) for stack in known):
        yield said_of_rule("P5", rule, lambda show: b"says nothing here: no modules of its stacks can answer so")
    elif is_certain and (rule.with_ or rule.without) and not any(can_end(stack, rule) for stack in known):
        yield said_of_rule("P5", rule, lambda show: b"says nothing here: none of its stacks can end so")


def judged(checked, rule):
    """The findings of a rule in order, its verdict, and the places of which it speaks."""
    places = [place for place in checked.places if text.is_about(rule, place[0]) and place[1] in rule.kinds]
    met = {}
    for place in places:
        met.setdefault(checked.places[place], []).append(place)
    upheld, unknown, known = [], [], []
    for key, here in met.items():
        stack = checked.stacks[key]
        if not isinstance(stack, Stack):
            unknown.append(not_known(rule, stack, here))
            continue
        known.append(stack)
        found = trial(stack, rule).run()
        if rule.sort == "can" and not found:
            upheld.append(said_of_rule("P2", rule, lambda show: b"does not hold: no answers of the modules make it so", here))
        elif rule.sort != "can" and found:
            upheld.append(broken(rule, stack, here, found))
    nothing = [] if upheld or unknown else list(idle(rule, known))
    findings = upheld + list(wrong_names(checked, rule)) + nothing + unknown
    verdict = "broken" if upheld else "not known" if unknown else "holds"
    return sorted(findings, key=lambda finding: finding.number), verdict, places


class Judgement:
    """What a host says of the rules of policies."""

    def __init__(self, checked, rules):
        self.rules = [(rule, *judged(checked, rule)) for rule in rules]
        self.stacks = len({place for _, _, _, places in self.rules for place in places})
        self.levels = [finding.level for _, findings, _, _ in self.rules for finding in findings]

    def text(self):
        lines = [b"%s:%d: %s: %s: %s%s\n" % (
            host.shown(rule.policy), rule.line, host.LEVELS[finding.level], finding.number.encode() + b" " + finding.name.encode(), finding.sentence(host.shown),
            host.met_text(finding.met) if finding.met else b"") for rule, findings, _, _ in self.rules for finding in findings]
        counts = [host.counted(self.levels.count(level), host.LEVELS[level]) for level in (2, 1, 0)]
        return b"".join(lines) + b"checked %s, %s: %s\n" % (
            host.counted(len(self.rules), b"rule"), host.counted(self.stacks, b"stack"), b", ".join(counts))

    def json(self):
        return b"".join(json_lines.policy(self))
