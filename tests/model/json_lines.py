"""The lines of answers as JSON, read plainly from `docs/JSON.md`."""
import json
import re

from model import guards, host, host_tables, stacks

MOST_COUNTED = 2 ** 128


def line(kind, **members):
    """A line: an object with no space between values."""
    return json.dumps({"kind": kind, **members}, ensure_ascii=False, separators=(",", ":")).encode() + b"\n"


def text(data):
    """Bytes as a string, with U+FFFD for each longest run of bytes that could begin a character."""
    return data.decode("utf-8", "replace")


def ways(count):
    return "%d" % count if count < MOST_COUNTED else "%d+" % MOST_COUNTED


def cursor(steps):
    return ".".join("%d" % number for number in stacks.key_of(steps)) or "-"


def stack(service, kind, modules):
    return line("stack", service=text(service), type=text(kind), modules=len(modules))


def items(listed, depth=0):
    """The lines of `show`."""
    for item in listed:
        place = {"depth": depth, "file": text(item.file), "line": item.line}
        if isinstance(item, stacks.Substack):
            yield line("substack", **place, target=text(item.target))
            yield from items(item.items, depth + 1)
        else:
            yield line("module", depth=depth, number=item.number, file=text(item.file), line=item.line, dashed=bool(item.dashed),
                       control=text(stacks.control_text(item.control)), path=text(item.path), arguments=[text(word) for word in item.arguments])


def step(module, code, state):
    """A module that a run asks, with the state after it: the impression and the status."""
    action = module.control[stacks.CODES.index(code)]
    is_jump = not isinstance(action, bytes)
    return line("step", number=module.number, path=text(module.path), code=text(code), action="jump" if is_jump else text(action),
                jump=action if is_jump else None, impression=text(state[0]), status=text(state[1]))


def decision(code):
    return line("decision", code=text(code))


def login(kind, granted, at, table=None):
    """What tables say of a login, the line that decides, and the name of its table where there are several."""
    of_table = {} if table is None else {"table": text(table)}
    return line(kind, granted=bool(granted), line=at, **of_table)


def steps(taken, modules):
    """The modules that a path asks, each with the codes that take the path, in their order."""
    return [{"number": number, "module": text(modules[number - 1].path.rpartition(b"/")[2]),
             "codes": [text(code) for code in stacks.CODES if code in codes]} for number, codes in taken]


def outcome(code, count, taken, modules):
    return line("outcome", decision=text(code), ways=ways(count), cursor=cursor(taken), steps=steps(taken, modules))


def total(count):
    return line("total", ways=ways(count))


def page(paths, more, backward, modules):
    """The paths of a page, and the cursor of its last one if others follow."""
    lines = [line("path", cursor=cursor(taken), decision=text(code), steps=steps(taken, modules)) for taken, code in paths]
    following = cursor(paths[-1][0]) if more else None
    return b"".join(lines) + line("page", paths=len(paths), next=following, direction="before" if backward else "after")


# The lines of `check`.

def finding(path, spot, level, name, sentence, stack=None, met=(), answers=()):
    """A finding: where, how grave, what is wrong, and which stacks meet it."""
    number, name = text(name).split(" ")
    services = list(dict.fromkeys(text(service) for service, _ in met))
    service, kind = [word if word is None else text(word) for word in stack or (None, None)]
    line_number, column, length = spot
    return line("finding", file=text(path), line=line_number or None, column=column, length=length, level=text(host.LEVELS[level]), number=number, name=name,
                sentence=text(sentence), service=service, type=kind, types=[text(kind) for kind in stacks.KINDS if kind in {kind for _, kind in met}],
                services=services[:2], service_count=len(services),
                answers=[{"number": number, "module": text(module), "code": text(code)} for number, module, code in answers])


def quoted(word):
    """A word in a sentence, which is whole."""
    return ('"%s"' % text(word)).encode()


def findings(checked, paths, accept=(b"", ()), given=()):
    """What is found of a host, in order: of each finding what `finding` takes."""
    found, of_tables, unused = host.unaccepted(checked, accept, given)
    for (file, at, number, detail), met in found:
        sentence = host.said(checked, file, at, number, detail, quoted, lambda name: text(name).encode())
        stack = detail[:2] if isinstance(detail, tuple) else None
        word = host.spot(checked, file, at, number, detail)
        yield (paths[file], word or (at, None, None), host.level_of(number, detail), host.name_of(number), sentence, stack, host.named_met(detail, met),
               checked.ways.get((file, at, number, detail), ()))
    for table, at, number in of_tables:
        yield given[table][0], (at, None, None), host_tables.level_of(number), host_tables.name_of(number), host_tables.sentence(table, number)
    for one in unused:
        yield one[0], (one[1], None, None), host.level_of_unused(one), b"S8 UnusedLine", host.unused_sentence(one, quoted)


def check(checked, paths, accept=(b"", ()), given=()):
    """What `check` prints of a host."""
    for one in findings(checked, paths, accept, given):
        yield finding(*one)
    found, of_tables, unused = host.unaccepted(checked, accept, given)
    levels = host.levels_of(found, of_tables, unused)
    count = len(checked.services)
    yield line("checked", services=count, stacks=4 * count, errors=levels.count(2), warnings=levels.count(1), notes=levels.count(0))


# The lines of `compare`, from those of its text. No name in it may have a blank, a quote, or ` only in `.

def module(word, place="old"):
    """A module by its path, and which of those with this path it is in the stack of a configuration."""
    path, number = re.fullmatch(r"(.*?)(?:#(\d+)%s)?" % (" of new" if place == "new" else ""), word).groups()
    return {"module": path, "occurrence": int(number or 1), "counted_in": place}


def asked(words):
    """A module that is asked, and its answer; `-` marks one of the old stack alone, `+` one of the new stack."""
    word, code = words.rsplit(" ", 1)
    place = {"-": "old", "+": "new"}.get(word[0])
    return {"configuration": place or "both", **module(word[1:] if place else word, place or "old"), "code": code}


def fault(words):
    """The first fault of a configuration, or nothing."""
    number, *rest = words.split(" ")
    if number == "accepted":
        return None
    file, _, at = rest[1].rpartition(":") if len(rest) > 1 else (None, None, None)
    return {"number": number, "name": rest[0], "file": file, "line": at and int(at)}


def same(words):
    """The modules that change where the decisions are the same."""
    lists = {"removed": [], "added": [], "moved": [], "controls": []}
    for one in filter(None, words.split(", ")):
        word, change = re.fullmatch(r"(.*) (removed|added|moved|with another control)", one).groups()
        lists["controls" if change == "with another control" else change].append(module(word, "new" if change == "added" else "old"))
    return lists


def guard(head, change, words):
    """A module that guards a login."""
    path, does, place, file, at = re.fullmatch(r"(.*), which (.*) \((old|new) (.*):(\d+)\)", words).groups()
    name = {words.decode(): name for name, words in guards.WORDS.items()}[does]
    return line("guard", **head, change=change, **module(path, place), guard=name, file=file, line=int(at))


def counted(words):
    """The numbers of the last line."""
    names = ["stacks", "equal", "same_decisions", "changed", "refused", "not_known"]
    numbers = dict(zip(names, map(int, re.findall(r"\d+", words.split(";")[0]))))
    only = {where: int(number) for number, where in re.findall(r"(\d+) services? only in (old|new)", words)}
    return line("compared", **numbers, only_in_old=only.get("old", 0), only_in_new=only.get("new", 0))


def compared(data):
    """A line of `compare`."""
    words = text(data)
    if words.startswith("compared "):
        return counted(words)
    if " only in " in words:
        service, place = words.split(" only in ")
        return line("only", service=service, configuration=place)
    service, kind, rest = words.split(" ", 2)
    return of_stack({"service": service, "type": kind}, rest)


def of_stack(head, rest):
    """A line of two stacks, after the service and the kind."""
    what, _, more = rest.partition(" ")
    if what == "refused:":
        old, new = re.fullmatch("old (.*), new (.*)", more).groups()
        return line("refused", **head, old=fault(old), new=fault(new))
    if what == "as":
        return line("as", **head, **dict(zip(("first_service", "first_type"), more.split(" "))))
    if what == "arguments":
        path, old, new = re.fullmatch('of (\\S+): "(.*)" becomes "(.*)"', more).groups()
        return line("arguments", **head, **module(path), old=old.split(), new=new.split())
    if what == "same":
        return line("same_decisions", **head, **same(more.partition(": ")[2]))
    if what in ("removed:", "added:"):
        return guard(head, what[:-1], more)
    if what == "not":
        return line("not_known", **head, situations=int(re.search(r"\d+", more)[0]))
    old, new, steps = re.fullmatch("(\\S+) becomes (\\S+) where (.*)", more).groups()
    return line("change", **head, change=what[:-1], old=old, new=new, steps=[asked(step) for step in steps.split(", ")])


# The lines of `policy`.

def of_rule(rule):
    """What names a rule."""
    return {"policy": text(rule.policy), "line": rule.line, "rule": text(rule.text)}


def policy(judgement):
    """What `policy` prints of a judgement."""
    for rule, findings, _, _ in judgement.rules:
        for found in findings:
            yield line("finding", number=found.number, name=found.name, level=text(host.LEVELS[found.level]), **of_rule(rule),
                       sentence=text(found.sentence(lambda name: text(name).encode())),
                       stacks=[{"service": text(service), "type": text(kind)} for service, kind in found.met],
                       decision=found.decision and text(found.decision),
                       steps=[{"number": number, "module": text(module), "code": text(code)} for number, module, code in found.steps])
    for rule, _, verdict, places in judgement.rules:
        yield line("rule", **of_rule(rule), verdict=verdict, stacks=len(places))
    levels = judgement.levels
    yield line("total", rules=len(judgement.rules), stacks=judgement.stacks, errors=levels.count(2), warnings=levels.count(1), notes=0)


# The lines of `needs` after the first.

def needs(service, kind, rules):
    """What `needs` prints of the rules that hold of a stack, `None` if no answers let anybody in."""
    for said in rules or []:
        events = [{"module": text(event.name), "argument": event.argument if event.argument is None else text(event.argument)} for event in said.events]
        yield line("rule", rule=text(b" ".join([service, kind, *said.words()])), verb=text(said.verb), asked=said.is_asked, events=events)
    yield line("total", way_in=rules is not None, rules=len(rules or []))
