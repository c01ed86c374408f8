"""What `check --format patch` prints, read plainly from `docs/SPECIFICATION.md`: a diff of each file in which a word has one certain mending."""
import re
from itertools import islice
from types import SimpleNamespace

from model import arguments, host as plain_host, spelling, stacks

CONTEXT = 3
LINE = re.compile(rb"[^\n]*\n|[^\n]+")
NO_FEED = b"\n\\ No newline at end of file\n"
# What a word may be made of that is put into a line, and what a patch can name.
PLAIN = re.compile(rb"[!\"$-Z^-~]+")
PATH = re.compile(rb"[^\x00-\x20\"\\\x7f]+")
RIGHT = {"E3": stacks.KINDS, "E4": spelling.CONTROLS, "E5": spelling.BEFORE_SIGN, "E6": spelling.AFTER_SIGN}


def choice(host, file, line, number, detail):
    """The word that a finding is about, the part of it that is wrong, how this is compared, and the right words; or `None`."""
    if number in ("S15", "S16"):
        front, sign, _ = detail.word.partition(b"=")
        known = [row.argument for row in arguments.rows(plain_host.module_name(detail.path))]
        return detail.word, front + sign, front + sign, known
    if number not in RIGHT and number != "S5":
        return None
    word = spelling.wrong_word(host.form, number, dict(stacks.logical_lines(host.data[file]))[line])
    if word is None or number in RIGHT:
        return word and (word, word, word.lower(), RIGHT[number])
    name = word.rpartition(b"/")[2]
    return word, name, name, list(islice(host.there, spelling.MOST_NAMES))


def right_word(number, part, compared, words):
    """The nearest right word, if no other one is as near, and it can stand in the line in place of the wrong one."""
    near = spelling.nearest(words, compared)
    if near is None or near == part or number == "E6" and near in spelling.NUMBERS or near in (b"include", b"substack"):
        return None
    least = spelling.errors(compared, near)
    if any(spelling.errors(compared, other) <= least for other in words if other != near):
        return None
    return near if PLAIN.fullmatch(near) and (b"=" in part) == (b"=" in near) else None


def mending(host, file, line, number, detail):
    """Of a finding: the line of its rule and that of its word, where the wrong part begins and ends in its file, and the right word."""
    spot = line and plain_host.spot(host, file, line, number, detail)
    found = spot and choice(host, file, line, number, detail)
    if not found:
        return None
    word, part, compared, words = found
    near = right_word(number, part, compared, words)
    data = host.data[file]
    start = sum(map(len, LINE.findall(data)[:spot[0] - 1])) + spot[1] - 1 + max(0, spot[2] - len(word))
    if near is None or data[start:start + len(word)] != word:
        return None
    start += len(word) - len(part) if number == "S5" else 0
    return line, spot[0], start, start + len(part), near


def mended(data, mendings):
    """The bytes of a file, each wrong part replaced; one that begins before the end of another one is passed over."""
    pieces, end = [], 0
    for _, _, start, after, text in mendings:
        if start >= end:
            pieces += [data[end:start], text]
            end = after
    return b"".join(pieces) + data[end:]


def reading(form, data):
    """The lines of the rules of modules, those of faults, and the number of rules and faults."""
    rules, faults = plain_host.Host.read_file(SimpleNamespace(form=form, data={b"": data}), b"")
    return {rule.line for rule in rules if rule.path is not None}, {line for line, _ in faults}, len(rules) + len(faults)


def certain(form, data, mendings):
    """The mendings whose lines are then rules of modules, if no line has a new fault, and no rule comes or goes; else none."""
    modules = reading(form, mended(data, mendings))[0]
    kept = [one for one in mendings if one[0] in modules]
    old, new = reading(form, data), reading(form, mended(data, kept))
    return kept if {one[0] for one in kept} <= new[0] and new[1] <= old[1] and new[2] == old[2] else []


def shown(mark, line):
    return mark + line + (b"" if line.endswith(b"\n") else NO_FEED)


def diff(path, data, mendings):
    """A diff with one hunk."""
    old, new = LINE.findall(data), LINE.findall(mended(data, mendings))
    changed = [number for _, number, *_ in mendings]
    first, last = max(1, min(changed) - CONTEXT), min(len(old), max(changed) + CONTEXT)
    span = b"%d,%d" % (first, last - first + 1)
    rows = [shown(b" ", line) if line == other else shown(b"-", line) + shown(b"+", other)
            for line, other in zip(old[first - 1:last], new[first - 1:last])]
    return b"--- a/%s\n+++ b/%s\n@@ -%s +%s @@\n" % (path, path, span, span) + b"".join(rows)


def named(path):
    """The path of a file in a patch, or `None` if it can have none."""
    path = path[1:] if path.startswith(b"/") else path[2:] if path.startswith(b"./") else path
    return path if PATH.fullmatch(path) else None


def check(host, paths, accept, given):
    """The patch of a host."""
    found, _, _ = plain_host.unaccepted(host, accept, given)
    diffs = []
    for file in host.data:
        mendings = [one for one in (mending(host, *finding) for finding, _ in found if finding[0] == file) if one is not None]
        kept = certain(host.form, host.data[file], mendings) if mendings else []
        path = named(paths[file])
        if kept and path is not None:
            diffs.append(diff(path, host.data[file], kept))
    return b"".join(diffs)
