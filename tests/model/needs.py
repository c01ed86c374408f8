"""The rules that hold of a stack, read plainly from `docs/SPECIFICATION.md`.

Whether a rule holds is asked of its words: they are read as those of a policy are, and judged as its rule at the stack."""
import re
from collections import namedtuple

from model import host, policies
from model import policy_text as text

BLANK = re.compile(rb"[ \t\r]")


class Event:
    """The name of a module, or that name with an argument of it, and the number of the module."""

    def __init__(self, number, name, argument=None):
        self.number = number
        self.name = name
        self.argument = argument

    def word(self):
        """The event in a policy."""
        return self.name + (b"" if self.argument is None else b"[%s]" % self.argument)


class Said(namedtuple("Said", "verb events is_asked", defaults=[False])):
    """A rule: its verb, its events, and whether any answer of these is enough."""

    def words(self):
        """Its words after its kinds."""
        if self.verb == b"asks":
            return [b"always", b"asks", self.events[0].word()]
        words = [self.verb]
        for event in self.events:
            words += [event.word() + b"=any" * self.is_asked, b"or"]
        return words[:-1]


def name_of(path):
    """The name by which rules speak of the module at a path, if a policy can have it."""
    name = host.module_name(path)
    if name is None:
        name = path if b"/" in path else b""
    is_word = not BLANK.search(name) and not name.startswith(b"#")
    return name if is_word and re.fullmatch(rb"(?s)[^][=]+", name) and name not in text.KEYWORDS else None


def is_sayable(argument):
    """Whether a test of a policy can ask for this argument, and for no other."""
    return bool(re.fullmatch(rb"(?s)[^][<> \t\r]+", argument)) and not argument.startswith(b"!") and not argument.endswith(b"=")


def events_of(modules):
    """The events of a stack: each name at its first module, and where several have it, of each module its first argument that no other has."""
    named = [(module, name_of(module.path)) for module in modules]
    for module, name in named:
        alike = [other for other, other_name in named if other_name == name]
        if name is None:
            continue
        if alike[0] is module:
            yield Event(module.number, name)
        own = [argument for argument in module.arguments
               if is_sayable(argument) and not any(argument in other.arguments for other in alike if other is not module)]
        if len(alike) > 1 and own:
            yield Event(module.number, name, own[0])


class Rules:
    """The rules that hold of a stack."""

    def __init__(self, stack):
        self.stack = stack
        self.events = list(events_of(stack.modules))

    def rule(self, words):
        return text.rule_of(b"", 1, [b"s", self.stack.kind, *words])

    def holds(self, verb, *events, is_asked=False):
        return policies.trial(self.stack, self.rule(Said(verb, events, is_asked).words())).run() is None

    def needed(self, events):
        return bool(events) and self.holds(b"needs", *events)

    def can_do_else(self, event, failing):
        """Whether a module of its name and argument may give an answer that is no failure."""
        return any(codes - text.FAILURE for module, codes in zip(self.stack.modules, self.stack.answers)
                   if self.stack.speaks_of(failing, False, module))

    def is_obeyed(self, event):
        """Whether no run lets in where it fails, and it fails in some run."""
        return self.holds(b"obeys", event) and policies.can_happen(self.stack, self.rule([b"obeys", event.word()]))

    def is_worth_obeying(self, event):
        failing = self.rule([b"obeys", event.word()]).with_[1][0]
        return self.is_obeyed(event) and self.can_do_else(event, failing)

    def vouches(self, event):
        """Whether a name says who logs in."""
        if self.stack.kind != b"auth":
            return True
        classes = [(host.fact(module.path, tuple(module.arguments), self.stack.facts) or host.UNKNOWN)[0]
                   for module in self.stack.modules if name_of(module.path) == event.name]
        return "checks" in classes or "ignores" in classes

    def those(self, is_said):
        """The events of which something is said; of a name with an argument only if not of the name."""
        return [event for event in self.events
                if is_said(event) and (event.argument is None or not is_said(Event(event.number, event.name)))]

    def fewest(self, events, always=()):
        """Of some events those that are needed together with these, after each that can be left out is, the last first."""
        kept = list(events)
        for event in reversed(events):
            fewer = [other for other in kept if other is not event]
            if self.needed([*always, *fewer]):
                kept = fewer
        return kept

    def groups(self, left):
        """Events that are needed together; the same again of those that are left."""
        while self.needed(left):
            group = self.fewest(left)
            yield group
            left = [event for event in left if event not in group]

    def guards(self, vouching, guarding):
        """Each of some events with as few others as make it needed, where it is."""
        for event in guarding:
            if self.needed([event, *vouching]):
                group = self.fewest(vouching, [event])
                if not self.needed(group):
                    yield sorted([event, *group], key=lambda one: one.number)

    def all(self):
        """All of them in their order; `None` if no answers let anybody in."""
        if policies.trial(self.stack, self.rule([b"never", b"succeeds"])).run() is None:
            return None
        needed = self.those(lambda event: self.needed([event]))
        left = [event for event in self.events if event.argument is None and event not in needed]
        vouching = [event for event in left if self.vouches(event)]
        guarding = [event for event in left if event not in vouching and self.is_obeyed(event)]
        on_way_in = self.those(lambda event: self.holds(b"needs", event, is_asked=True))
        always = self.those(lambda event: self.holds(b"asks", event))
        groups = [[event] for event in needed] + [*self.groups(vouching), *self.guards(vouching, guarding)]
        return ([Said(b"needs", group) for group in groups] + [Said(b"obeys", [event]) for event in self.those(self.is_worth_obeying)]
                + [Said(b"needs", [event], True) for event in on_way_in if event not in needed and event not in always]
                + [Said(b"asks", [event], True) for event in always])


def told(service, kind, modules, rules):
    """The text of the answer, where the service is as the words give it."""
    lines = [b"# %s %s %d modules\n" % (service.lower(), kind, len(modules))]
    if rules is None:
        lines.append(b"# no way in\n")
    return b"".join(lines + [host.shown(b" ".join([service, kind, *said.words()])) + b"\n" for said in rules or []])
