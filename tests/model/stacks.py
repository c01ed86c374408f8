"""Configuration text, controls, the stack of a service and what it decides, read plainly from `docs/SPECIFICATION.md`.

Nothing here is quick. Paths are found by trying all 31 codes at each module that is asked.
"""
import re
from collections import namedtuple
from functools import lru_cache

from model.faults import Fault, LineFault, judge_whole, judged

CODES = b"""success open_err symbol_err service_err system_err buf_err perm_denied auth_err cred_insufficient
    authinfo_unavail user_unknown maxtries new_authtok_reqd acct_expired session_err cred_unavail cred_expired cred_err
    no_module_data conv_err authtok_err authtok_recover_err authtok_lock_busy authtok_disable_aging try_again ignore
    abort authtok_expired module_unknown bad_item conv_again""".split()
KINDS = [b"auth", b"account", b"password", b"session"]
KEYWORDS = {
    b"required": b"[success=ok new_authtok_reqd=ok ignore=ignore default=bad]",
    b"requisite": b"[success=ok new_authtok_reqd=ok ignore=ignore default=die]",
    b"sufficient": b"[success=done new_authtok_reqd=done default=ignore]",
    b"optional": b"[success=ok new_authtok_reqd=ok default=ignore]",
}
WORDS_OF_ACTIONS = [b"ignore", b"bad", b"die", b"ok", b"done", b"reset"]
BLANKS_BEFORE_A_WORD = re.compile(rb"[ \t\r]*(?=[^ \t\r])")
PLAIN_WORD = re.compile(rb"[^ \t\r\[][^ \t\r]*")
BRACKETED_WORD = re.compile(rb"(?s)\[(.*?)(?<!\\)\]")
SINGLE = "single"
DIR = "dir"

Rule = namedtuple("Rule", "line service kind dashed control path arguments follows target")
Module = namedtuple("Module", "number dashed control path arguments file line")
Substack = namedtuple("Substack", "file line target items")
State = namedtuple("State", "impression status")

MOST_OPEN = 16
MOST_FOLLOWED = 256
MOST_MODULES = 256
START = State(b"undef", b"perm_denied")


# Configuration text

def logical_lines(data):
    """The lines with their numbers, without comments and with continuations joined; also those of blanks alone."""
    number = 1
    for line in re.split(rb"(?<!\\)\n", re.sub(rb"#[^\n]*", b"", data)):
        yield number, line.replace(b"\\\n", b" ")
        number += 1 + line.count(b"\n")


def words_of(line):
    """The words of a logical line, each as it is written and as its text."""
    words = []
    position = 0
    while blanks := BLANKS_BEFORE_A_WORD.match(line, position):
        position = blanks.end()
        if plain := PLAIN_WORD.match(line, position):
            words.append((plain[0], plain[0]))
        elif bracketed := BRACKETED_WORD.match(line, position):
            words.append((bracketed[0], bracketed[1].replace(rb"\]", b"]")))
        else:
            raise LineFault("E8")
        position += len(words[-1][0])
    return words


def target_of(words):
    """The target of an include, whose words after it are passed over."""
    if not words:
        raise LineFault("E9")
    target = words[0][1].removeprefix(b"/etc/pam.d/")
    if not target or b"/" in target:
        raise LineFault("E10")
    return target


def rule_of(form, number, line):
    """The rule of a line, or `None` where it has no word."""
    words = words_of(line)
    if not words:
        return None
    service = None
    if words[0][1].lower() == b"@include":
        if form == SINGLE:
            raise LineFault("E14")
        return Rule(number, None, None, False, None, None, None, b"include", target_of(words[1:]))
    if form == SINGLE:
        service = words.pop(0)[1].lower()
    if not words:
        raise LineFault("E2")
    kind = words[0][1].removeprefix(b"-").lower()
    dashed = words[0][1].startswith(b"-")
    if kind not in KINDS:
        raise LineFault("E3")
    if len(words) < 2:
        raise LineFault("E2")
    written = words[1][0].lower()
    if written in (b"include", b"substack"):
        if form == SINGLE:
            raise LineFault("E14")
        return Rule(number, service, kind, dashed, None, None, None, written, target_of(words[2:]))
    control = control_of(written)
    if len(words) < 3:
        raise LineFault("E2")
    texts = [text for _, text in words[2:]]
    return Rule(number, service, kind, dashed, control, texts[0], texts[1:], None, None)


def rules_of(name, data, form):
    """All rules of a file."""
    judge_whole(name, data, "E16", "E1")
    rules = judged(name, logical_lines(data), lambda number, line: rule_of(form, number, line))
    return [rule for rule in rules if rule is not None]


# Controls

@lru_cache(None)
def control_of(written):
    """The 31 actions, in the order of the codes, of a control in lower case: words, or numbers for jumps."""
    written = KEYWORDS.get(written, written)
    if not written.startswith(b"["):
        raise LineFault("E4")
    tokens = re.findall(rb"=|[^ \t\r=]+", written[1:-1])
    triples = [(tokens[start:start + 3] + [None, None])[:3] for start in range(0, len(tokens), 3)]
    pairs = [pair_of(*triple) for triple in triples]
    defaults = [action for name, action in pairs if name == b"default"] + [b"bad"]
    named = dict(pairs)
    return tuple(named.get(code, defaults[0]) for code in CODES)


def pair_of(name, sign, action):
    """A name and its action; what is missing is `None`."""
    if name not in CODES + [b"incomplete", b"default"]:
        raise LineFault("E5")
    if sign != b"=":
        raise LineFault("E4")
    if action in WORDS_OF_ACTIONS:
        return name, action
    if action is None or not re.fullmatch(rb"[0-9]{1,9}", action):
        raise LineFault("E6")
    if int(action) == 0:
        raise LineFault("E7")
    return name, int(action)


def action_text(action):
    """An action as a control writes it."""
    return action if isinstance(action, bytes) else b"%d" % action


def class_text(codes):
    """A class of codes as it is printed."""
    if len(codes) == 31:
        return b"any"
    if len(codes) >= 16:
        return b"but:" + b",".join(code for code in CODES if code not in codes)
    return b",".join(codes)


@lru_cache(None)
def control_text(control):
    """The written text of a control."""
    for keyword, written in KEYWORDS.items():
        if control_of(written) == control:
            return keyword
    pairs = [b"%s=%s " % (code, action_text(action))
             for code, action in zip(CODES, control) if action != control[-1]]
    return b"[%sdefault=%s]" % (b"".join(pairs), action_text(control[-1]))


# The stack of a service

class Files:
    """The files of a source: a folder by names, or `pam.conf` alone."""

    def __init__(self, form, files):
        self.form = form
        self.files = files

    def rules(self, service):
        """The rules of a service, or `None` where it has no file."""
        if self.form == DIR:
            return rules_of(service, self.files[service], DIR) if service in self.files else None
        rules = [rule for rule in rules_of(b"pam.conf", self.files.get(b"pam.conf", b""), SINGLE) if rule.service == service]
        return rules or None

    def place(self, service, line):
        """The place of a rule of that service."""
        return b"%s:%d" % (self.file(service), line)

    def file(self, service):
        """The name of the file that has the rules of that service."""
        return service if self.form == DIR else b"pam.conf"


class Walk:
    """One resolution, which counts its modules and the targets that it followed."""

    def __init__(self, files, kind):
        self.files = files
        self.kind = kind
        self.modules = []
        self.followed = 0

    def items(self, service, trail):
        """The items of a service whose file is there, while the files of the trail are open."""
        items = []
        for rule in self.files.rules(service):
            if rule.kind in (None, self.kind):
                items += self.items_of_rule(service, rule, trail + [service])
        return items

    def items_of_rule(self, service, rule, trail):
        place = self.files.place(service, rule.line)
        if rule.follows is None:
            if len(self.modules) == MOST_MODULES:
                raise Fault("E13", place)
            self.modules.append(Module(len(self.modules) + 1, rule.dashed, rule.control, rule.path, rule.arguments,
                                       self.files.file(service), rule.line))
            return [self.modules[-1]]
        if rule.target not in self.files.files:
            raise Fault("E15", place)
        if rule.target in trail:
            raise Fault("E11", place)
        if len(trail) == MOST_OPEN:
            raise Fault("E12", place)
        if self.followed == MOST_FOLLOWED:
            raise Fault("E18", place)
        self.followed += 1
        items = self.items(rule.target, trail)
        return items if rule.follows == b"include" else [Substack(service, rule.line, rule.target, items)]


def resolve(files, service, kind):
    """The items and the modules of a service's stack."""
    has_other = files.rules(b"other") is not None if files.form == SINGLE else b"other" in files.files
    has_file = files.rules(service) is not None if files.form == SINGLE else service in files.files
    if has_file:
        walk = Walk(files, kind)
        items = walk.items(service, [])
        if items or not has_other:
            return items, walk.modules
    if not has_other:
        raise Fault("E15")
    walk = Walk(files, kind)
    return walk.items(b"other", []), walk.modules


# The decision

def act(action, code, state, entry, after):
    """The new state, and how many of the items after the module in its own list are still to come."""
    may_take = state.impression == b"undef" or state == State(b"positive", b"success")
    taken = State(b"positive", code) if may_take else state
    failed = State(b"negative", b"perm_denied" if code == b"ignore" else code)
    failed = state if state.impression == b"negative" else failed
    if action == b"ignore":
        return state, after
    if action == b"ok":
        return taken, after
    if action == b"done":
        return taken, 0 if taken.impression == b"positive" else after
    if action == b"bad":
        return failed, after
    if action == b"die":
        return failed, 0
    if action == b"reset":
        return entry, after
    if action <= after:
        return state, after - action
    return State(b"negative", b"perm_denied"), 0


def next_module(lists, state):
    """The next module, with the open lists after it, or `None` with the decision.

    The open lists are pairs of the items to come and the entry state, the innermost list last."""
    while lists:
        items, entry = lists[-1]
        if not items:
            lists = lists[:-1]
        elif isinstance(items[0], Module):
            return items[0], lists[:-1] + [(items[1:], entry)]
        else:
            lists = lists[:-1] + [(items[1:], entry), (items[0].items, state)]
    if state.status == b"success" and state.impression != b"positive":
        return None, b"perm_denied"
    return None, state.status


def answered(module, lists, state, code):
    """The open lists and the state after a module has answered a code."""
    rest, entry = lists[-1]
    action = module.control[CODES.index(code)]
    state, left = act(action, code, state, entry, len(rest))
    return lists[:-1] + [(rest[len(rest) - left:], entry)], state


def place(module, lists, state):
    """What the rest of a run depends on where a module is asked: the module, the state, and the state in which each open list
    was entered, if a module that is still to come in it, the one that is asked or a later one, has the action `reset`."""
    coming = [items for items, _ in lists]
    coming[-1] = [module] + coming[-1]
    return module.number, state, tuple(entry if any(map(resets, reversed(items))) else None for items, (_, entry) in zip(coming, lists))


def resets(item):
    """Whether an item is a module that has the action `reset` for some code; the items of a substack are in another list."""
    return isinstance(item, Module) and b"reset" in item.control


def run(items, codes):
    """The modules that are asked, each with its code and the state after it, and the decision."""
    asked = []
    lists, state = [(items, START)], START
    while True:
        module, lists = next_module(lists, state)
        if module is None:
            return asked, lists
        code = codes[module.number - 1]
        lists, state = answered(module, lists, state, code)
        asked.append((module, code, state))


# Paths

def classes(module, lists, state):
    """The classes of codes at a module, in the order of their least codes, each with where it leads."""
    found = {}
    for code in CODES:
        after = answered(module, lists, state, code)
        outcome = after[1], len(after[0][-1][0])
        found.setdefault(outcome, ([], after))[0].append(code)
    return list(found.values())


def listing(lists, state, allowed):
    """The paths from a place that allowed codes can follow: their steps and their decision."""
    module, lists = next_module(lists, state)
    if module is None:
        yield [], lists
        return
    for codes, after in classes(module, lists, state):
        if any(code in allowed[module.number - 1] for code in codes):
            for steps, decision in listing(*after, allowed):
                yield [(module.number, codes)] + steps, decision


def key_of(steps):
    """The least codes of the classes of a path, as numbers."""
    return [CODES.index(codes[0]) for _, codes in steps]


def cursor_of(text):
    """The numbers of a cursor's text."""
    if text == b"-":
        return []
    if not re.fullmatch(rb"([0-9]|[12][0-9]|30)(\.([0-9]|[12][0-9]|30))*", text) or text.count(b".") > 255:
        raise Fault("C1")
    return [int(number) for number in text.split(b".")]


def judge_cursor(items, key):
    """Refuses a key that is not that of a path of the stack."""
    lists, state = [(items, START)], START
    for step, number in enumerate(key, 1):
        module, lists = next_module(lists, state)
        if module is None:
            raise Fault("C4")
        least = [after for codes, after in classes(module, lists, state) if codes[0] == CODES[number]]
        if not least:
            raise Fault("C2", b"step %d" % step)
        lists, state = least[0]
    if next_module(lists, state)[0] is not None:
        raise Fault("C3")
