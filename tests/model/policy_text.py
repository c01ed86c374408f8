"""The text of policies, read plainly from `docs/SPECIFICATION.md`."""
import operator
import re
from collections import namedtuple

from model import faults, stacks
from model.faults import Fault, LineFault

MOST_RULES = 1000
MOST_TOGETHER = 4
KEYWORDS = (b"or", b"and", b"with", b"without", b"before")
SUCCESSES = {b"success", b"new_authtok_reqd"}
FAILURE = set(stacks.CODES) - SUCCESSES - {b"ignore"}
NUMBER = rb"-?[0-9]{1,9}"
COMPARISONS = {b"<": operator.lt, b"<=": operator.le, b">": operator.gt, b">=": operator.ge}
COMPARED = re.compile(rb"(?s)([^<>=]+)(<=|>=|<|>)(%s)" % NUMBER)
EVENT = re.compile(rb"(?s)([^][=]+)((?:\[[^]]+\])*)(?:=(.*))?")
# What a module does that lets go on, which depends on the module.
LETS_GO_ON = "lets go on"
ANY = set(stacks.CODES)
ENDINGS = {b"succeed": b"succeeds", b"fail": b"fails", b"end": b"ends", b"decide": b"decides"}

# What a rule says. `sort` is `never`, `can` or `before`; `ending` is one of ENDINGS' values or a set of codes. A list is a joint and events;
# of `before`, `without` is what has to come first, and `with_` what it has to come before.
Rule = namedtuple("Rule", "policy line text wanted unwanted kinds sort ending with_ without")
Event = namedtuple("Event", "name tests codes")


def codes_of(text):
    """The codes that CODES name."""
    text = text.lower()
    but = text.startswith(b"but:")
    codes = set()
    for item in text[4 * but:].split(b","):
        if item not in (*stacks.CODES, b"failure") and text != b"any":
            raise LineFault("TE13")
        codes |= ANY if text == b"any" else FAILURE if item == b"failure" else {item}
    codes = ANY - codes if but else codes
    if not codes:
        raise LineFault("TE13")
    return frozenset(codes)


def test_of(text):
    """Whether a test is inverted, and its text, which is not empty."""
    inverted = text.startswith(b"!")
    if text == b"!":
        raise LineFault("TE20")
    return inverted, text[inverted:]


def event_of(word, bare):
    """The event of a word, whose codes are these where the word gives none."""
    found = EVENT.fullmatch(word)
    if word in KEYWORDS or not found or found[1] in KEYWORDS:
        raise LineFault("TE20")
    tests = tuple(test_of(text) for text in re.findall(rb"(?s)\[([^]]+)\]", found[2]))
    if found[3] is None and bare is None:
        raise LineFault("TE22")
    return Event(found[1], tests, bare if found[3] is None else codes_of(found[3]))


class Words:
    """The words of a line that are not read yet."""

    def __init__(self, words):
        self.words = words

    def next(self):
        if not self.words:
            raise LineFault("TE1")
        word, *self.words = self.words
        return word

    def is_next(self, *words):
        return bool(self.words) and self.words[0] in words

    def events(self, bare, only=None, most=None):
        """A list of events: its joint, and the events. `only` is the only joint that may stand here; `most` events are joined by `and`."""
        events, joint = [event_of(self.next(), bare)], None
        while self.is_next(b"or", b"and"):
            joint, before = self.next(), joint
            if before not in (None, joint) or only not in (None, joint):
                raise LineFault("TE21")
            events.append(event_of(self.next(), bare))
            if joint == b"and" and most and len(events) > most:
                raise LineFault("TE21")
        return joint or b"or", tuple(events)

    def events_after(self, keyword, most=None):
        if not self.is_next(keyword):
            return None
        self.next()
        return self.events(None, most=most)

    def sentence(self):
        """The sort, the ending, and the events with and without which it comes."""
        verb = self.next()
        if verb == b"needs":
            return "never", b"succeeds", None, self.events(LETS_GO_ON)
        if verb == b"obeys":
            return "never", b"succeeds", (b"or", self.events(frozenset(FAILURE), only=b"and")[1]), None
        if verb in (b"always", b"asks"):
            if verb == b"always" and self.next() != b"asks":
                raise LineFault("TE19")
            first = self.events(frozenset(ANY))
            if not self.is_next(b"before"):
                return "never", b"ends", None, first
            self.next()
            return "before", b"ends", (b"or", self.events(frozenset(ANY))[1]), first
        if verb not in (b"never", b"can"):
            raise LineFault("TE19")
        return (verb.decode(), *self.condition())

    def condition(self):
        """What follows `never` and `can`."""
        word = self.next()
        if word in (b"ask", b"asks"):
            return b"ends", self.events(frozenset(ANY), most=MOST_TOGETHER), None
        ending = ENDINGS.get(word, word)
        if ending not in ENDINGS.values():
            raise LineFault("TE19")
        if ending == b"decides":
            ending = codes_of(self.next())
        with_, without = self.events_after(b"with", MOST_TOGETHER), self.events_after(b"without")
        if ending == b"ends" and not with_ and not without and not self.words:
            raise LineFault("TE1")
        return ending, with_, without


def services_of(word):
    """The names that are wanted and those that are not."""
    tokens = word.split(b",")
    names = [token.removeprefix(b"!") for token in tokens]
    if any(not name or re.search(rb"[!/]|\*.*\*", name, re.S) for name in names) or all(token.startswith(b"!") for token in tokens):
        raise LineFault("TE17")
    return tuple(token for token in tokens if not token.startswith(b"!")), tuple(token[1:] for token in tokens if token.startswith(b"!"))


def kinds_of(word):
    named = stacks.KINDS if word == b"*" else word.lower().split(b",")
    if not set(named) <= set(stacks.KINDS):
        raise LineFault("TE18")
    return tuple(kind for kind in stacks.KINDS if kind in named)


def rule_of(policy, number, words):
    """The rule of a line."""
    left = Words(words)
    services = services_of(left.next())
    kinds = kinds_of(left.next())
    sentence = left.sentence()
    if left.words:
        raise LineFault("TE23")
    return Rule(policy, number, b" ".join(words), *services, kinds, *sentence)


def words_of(line):
    """The words of a line, up to one that begins a comment."""
    words = [word for word in re.split(rb"[ \t\r]", line) if word]
    comments = [at for at, word in enumerate(words) if word.startswith(b"#")]
    return words[:comments[0]] if comments else words


def rules_of(policy, data, before):
    """The rules of a policy, after so many of earlier ones."""
    faults.judge_whole(policy, data, "TE12", "TE10")
    rules = []
    for number, line in enumerate(data.split(b"\n"), 1):
        words = words_of(line)
        if not words:
            continue
        try:
            if before + len(rules) == MOST_RULES:
                raise LineFault("TE24")
            rules.append(rule_of(policy, number, words))
        except LineFault as fault:
            raise Fault(fault.number, b"%s:%d" % (policy, number)) from None
    return rules


# What rules speak of

def fits(name, service):
    """Whether a service is one of a name, where `*` stands for any bytes."""
    front, star, back = name.lower().partition(b"*")
    if not star:
        return front == service.lower()
    return len(service) >= len(front) + len(back) and service.lower().startswith(front) and service.lower().endswith(back)


def is_about(rule, service):
    return any(fits(name, service) for name in rule.wanted) and not any(fits(name, service) for name in rule.unwanted)


def value(arguments, key):
    """The number of the last argument that begins with the key and `=`, if it is one."""
    values = [argument[len(key) + 1:] for argument in arguments if argument.startswith(key + b"=")]
    return int(values[-1]) if values and re.fullmatch(NUMBER, values[-1]) else None


def holds(test, arguments):
    """Whether a test holds of the arguments of a rule."""
    inverted, text = test
    compared = COMPARED.fullmatch(text)
    if compared:
        number = value(arguments, compared[1])
        found = number is not None and COMPARISONS[compared[2]](number, int(compared[3]))
    elif text.endswith(b"="):
        found = any(argument.startswith(text) for argument in arguments)
    else:
        found = text in arguments
    return found != inverted


def key_of(argument):
    """The text of an argument up to its first `=`."""
    return argument[:argument.index(b"=") + 1] if b"=" in argument else argument


def key_of_test(test):
    compared = COMPARED.fullmatch(test[1])
    return compared[1] + b"=" if compared else key_of(test[1])


def placed_events(rule):
    """The events of a rule in the order of its words, each with whether only modules of the system count for it."""
    helping, others = (rule.with_, rule.without) if rule.sort == "can" else (rule.without, rule.with_)
    lists = [rule.without, rule.with_] if rule.sort == "before" else [rule.with_, rule.without]
    return [(event, one is helping) for one in lists if one for event in one[1]]
