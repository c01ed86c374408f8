"""Which modules some answers ask, and after which, which of these can jump past the end of their list, and of which a success counts, read
plainly from `docs/SPECIFICATION.md`: by trying every answer at every place at which a run can be."""

from model import outcomes, stacks


def questions(items, allowed):
    """Each module that allowed answers ask, with the open lists after it and the state, once for each place."""
    seen = set()
    waiting = [([(items, stacks.START)], stacks.START)]
    while waiting:
        lists, state = waiting.pop()
        module, lists = stacks.next_module(lists, state)
        place = module and stacks.place(module, lists, state)
        if module is None or place in seen:
            continue
        seen.add(place)
        yield module, lists, state
        waiting += [stacks.answered(module, lists, state, code) for code in allowed[module.number - 1]]


def asked(items, allowed):
    """The numbers of the modules that some answers ask."""
    return {module.number for module, _, _ in questions(items, allowed)}


def asked_with(code, items, allowed):
    """The numbers of the modules that some answers ask and that may answer a code."""
    return {number for number in asked(items, allowed) if code in allowed[number - 1]}


def asked_after(first, codes, items, allowed):
    """The numbers of the modules that some answers ask after a module with one of the first numbers, which gives one of the codes."""
    seen, found = set(), set()
    waiting = [([(items, stacks.START)], stacks.START, False)]
    while waiting:
        lists, state, is_after = waiting.pop()
        module, lists = stacks.next_module(lists, state)
        place = module and (stacks.place(module, lists, state), is_after)
        if module is None or place in seen:
            continue
        seen.add(place)
        if is_after:
            found.add(module.number)
        waiting += [(*stacks.answered(module, lists, state, code), is_after or module.number in first and code in codes)
                    for code in allowed[module.number - 1]]
    return found


def counting(items, allowed):
    """The numbers of the modules that answer success in a run that decides success."""
    places = outcomes.Places(allowed)
    return {module.number for module, lists, state in questions(items, allowed)
            if b"success" in allowed[module.number - 1]
            and b"success" in places.outcomes(*stacks.answered(module, lists, state, b"success"))}


def jumping(items, allowed):
    """The modules that are asked and can jump past the end of their list."""
    found = {}
    for module, lists, _ in questions(items, allowed):
        actions = [module.control[stacks.CODES.index(code)] for code in allowed[module.number - 1]]
        if any(isinstance(action, int) and action > len(lists[-1][0]) for action in actions):
            found[module.number] = module
    return [found[number] for number in sorted(found)]
