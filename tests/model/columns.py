"""Where the word that a finding is about begins in its file, and how much of it stands there, read plainly from `docs/SPECIFICATION.md`."""
import re

from model import spelling, stacks
from model.faults import LineFault

# Of the text of a file: a comment, a backslash before the end of a line, the end of a line, and any other byte.
STEP = re.compile(rb"(?P<comment>#[^\n]*)|(?P<joint>\\(?:#[^\n]*)?\n)|(?P<end>\n)|(?P<byte>[^\n])", re.DOTALL)
WORD = re.compile(rb"\[.*?(?<!\\)\]|[^ \t\r\[][^ \t\r]*", re.DOTALL)
TOKEN = re.compile(rb"=|[^ \t\r=]+")
# All of a line up to a bracket that stays open.
CLOSED = re.compile(rb"(?:[ \t\r]|%s)*" % WORD.pattern, re.DOTALL)
TARGETS = ["E10", "E11", "E12", "E15", "E18", "L10"]
PATHS = ["S3", "S5", "S13", "S14", "S25", "S26"]


def text_from(data, number):
    """Of the text of the line with a number, joined and without comments, each byte and where it stands in the file."""
    start = sum(len(line) + 1 for line in data.split(b"\n")[:number - 1])
    for step in STEP.finditer(data, start):
        if step["end"]:
            return
        if step["joint"]:
            yield b" ", step.start()
        elif step["byte"]:
            yield step["byte"], step.start()


def word_number(form, number, position, words):
    """The words of a line before the one that a finding with this number is about."""
    if number in TARGETS:
        return 1 if words[0][1].lower() == b"@include" else 2
    kind = 1 if form == stacks.SINGLE else 0
    if number == "E3":
        return kind
    if number in PATHS:
        return kind + 2
    return kind + 1 if position is None else kind + 3 + position


def piece(form, number, position, line):
    """The start of the word, or of the name or action in brackets, that a finding is about in a line, and its bytes; or `None`."""
    if number == "E8":
        start = CLOSED.match(line).end()
        return start, line[start:]
    try:
        words = stacks.words_of(line)
    except LineFault:
        return None
    at = word_number(form, number, position, words)
    if at >= len(words):
        return None
    word = list(WORD.finditer(line))[at]
    if number not in ("E5", "E6"):
        return word.start(), word[0]
    wrong = spelling.wrong_token(number, word[0])
    if wrong is None:
        return None
    every_third = [token for token in TOKEN.finditer(word[0], 1, len(word[0]) - 1)][0 if number == "E5" else 2::3]
    token = next(token for token in every_third if token[0] == wrong)
    return word.start() + token.start(), wrong


def spot(form, data, line, number, position):
    """The line, the column and the length of the word that a finding of a line is about, or `None`."""
    if position is None and number not in spelling.WRONG and number not in ["E8"] + TARGETS + PATHS or not line:
        return None
    text = list(text_from(data, line))
    found = piece(form, number, position, b"".join(byte for byte, _ in text))
    if found is None:
        return None
    start, word = found
    offset = text[start][1]
    length = next((at for at in range(len(word)) if data[offset + at:offset + at + 1] != word[at:at + 1]), len(word))
    return data.count(b"\n", 0, offset) + 1, offset - data.rfind(b"\n", 0, offset), length
