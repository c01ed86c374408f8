"""The outcomes of a stack, read plainly from `docs/SPECIFICATION.md`: for each decision, how many paths end in it and the
first of them.

They are counted over the places of a run, each of which is looked at once. Where there are few paths, these are listed
too, by trying all 31 codes at each module that is asked, and both ways must agree."""
from itertools import islice

from model import stacks
from model.faults import Fault

MOST_PLACES = 65536
# So few paths, each of at most 256 modules, have no more places than are allowed.
FEW_PATHS = 256


def outcomes(items, allowed):
    """By decision, the number of paths that end in it and the steps of the first."""
    lists = [(items, stacks.START)]
    counted = Places(allowed).outcomes(lists, stacks.START)
    counted = {decision: (count, unlinked(steps)) for decision, (count, steps) in counted.items()}
    paths = list(islice(stacks.listing(lists, stacks.START, allowed), FEW_PATHS + 1))
    assert len(paths) > FEW_PATHS or listed(paths) == counted, "two ways to count differ"
    return counted


def meeting(items, allowed, decisions, number):
    """The paths that end in one of these decisions or, where there are none, ask the module with this number, in order."""
    places = Places(allowed)

    def paths(lists, state, is_met):
        module, lists = stacks.next_module(lists, state)
        if module is None:
            if is_met or lists in decisions:
                yield [], lists
            return
        is_met = is_met or module.number == number
        for codes, after in stacks.classes(module, lists, state):
            if any(code in allowed[module.number - 1] for code in codes) and (is_met or places.can_meet(after, decisions, number)):
                for steps, decision in paths(*after, is_met):
                    yield [(module.number, codes)] + steps, decision

    return paths([(items, stacks.START)], stacks.START, False)


def listed(paths):
    """The outcomes of paths that are listed."""
    found = {}
    for steps, decision in paths:
        count, first = found.get(decision, (0, steps))
        found[decision] = count + 1, first
    return found


class Places:
    """The places that were looked at, each with the outcomes from there on; steps are linked, the first with the rest.

    The rest of a run depends on its place alone."""

    def __init__(self, allowed):
        self.allowed = allowed
        self.known = {}
        self.meets = {}

    def can_meet(self, place, decisions, number):
        """Whether a path from a place on ends in one of the decisions, or asks the module with the number."""
        lists, state = place
        module, lists = stacks.next_module(lists, state)
        if module is None:
            return lists in decisions
        if module.number == number:
            return True
        place = stacks.place(module, lists, state)
        if place not in self.meets:
            self.meets[place] = any(
                self.can_meet(after, decisions, number) for codes, after in stacks.classes(module, lists, state)
                if any(code in self.allowed[module.number - 1] for code in codes))
        return self.meets[place]

    def outcomes(self, lists, state):
        """The outcomes from a place on."""
        module, lists = stacks.next_module(lists, state)
        if module is None:
            return {lists: (1, None)}
        place = stacks.place(module, lists, state)
        if place not in self.known:
            found = self.found(module, lists, state)
            if len(self.known) == MOST_PLACES:
                raise Fault("E19")
            self.known[place] = found
        return self.known[place]

    def found(self, module, lists, state):
        """The outcomes from a module that is asked: those of each class that it may answer, in their order."""
        found = {}
        for codes, after in stacks.classes(module, lists, state):
            if any(code in self.allowed[module.number - 1] for code in codes):
                for decision, (more, rest) in self.outcomes(*after).items():
                    count, first = found.get(decision, (0, ((module.number, codes), rest)))
                    found[decision] = count + more, first
        return found


def unlinked(steps):
    """Linked steps as a list."""
    found = []
    while steps is not None:
        step, steps = steps
        found.append(step)
    return found
