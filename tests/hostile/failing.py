"""Standard output that takes a number of bytes and no more, for each number below the length of the answer.

The answer is then a failed write, after exactly these bytes. A limit on the size of files cuts a write there, and what comes after
it fails. Standard error is a pipe, which has no such limit."""
import os
import resource

from hostile import compared
from hostile.running import Answer, Difference, agrees, difference
from model import plain

V2 = b"pamcheck: V2 Write\n"
COMMON = b"auth [success=1 default=ignore] a.so\nauth requisite pam_deny.so\n"
TREE = {"d": {"login": b"auht required a.so\r\n@include common\n", "common": COMMON, "two\nlines": b"auth requird b.so\n"},
        "p": b"s* auth needs pam_unix\n* auth,account never asks pam_dney\nlogin auth obeys a\n", "s": {"login": COMMON}, "n": {"login": COMMON[:COMMON.index(b"\n") + 1] + b"auth optional pam_deny.so\n"}}
STACK = ["login", "auth", "--dir", "s"]
ASKED = [["check", "--dir", "d"], ["outcomes", *STACK], ["graph", *STACK], ["graph", *STACK, "--format", "mermaid"],
         ["compare", "s", "n"], ["explain", "e15"], ["explain", "L2"], ["show", *STACK], ["decide", *STACK, "success", "ignore"],
         ["check", "--dir", "d", "--json"], ["check", "--dir", "d", "--format", "sarif"], ["check", "--dir", "d", "--format", "full"], ["policy", "p", "--dir", "s"],
         ["policy", "p", "--dir", "s", "--json"], ["needs", *STACK], ["needs", *STACK, "--json"]]
# Answers of many bytes, of which not every one is tried.
LONG = [["graph", *STACK, "--format", "svg"], ["explain"], ["facts"], ["paths", *STACK], ["paths", *STACK, "--json"], ["help", "check"]]
STEP = 97
EXPLAINED = [["explain"], ["explain", "s2"], ["facts"], ["help"]]


def whole_answer(program, words):
    """The whole answer; where the plain reading covers it, as that allows. `tests/docs/explained` has the rest."""
    got = program.run(words)
    if words[0] == "compare":
        compared.judged(program, [word.encode() for word in words], TREE)
    elif words[0] not in ("explain", "help"):
        expected = Answer(*plain.answer(words, TREE))
        if not agrees(expected, got):
            raise difference(words, TREE, expected, got)
    if not got.stdout or got.stderr:
        raise Difference("no answer to %s" % words)
    return got


def cut(program, words, most):
    """The answer where standard output takes so many bytes."""
    reading, writing = os.pipe()
    limits = resource.getrlimit(resource.RLIMIT_FSIZE)
    resource.setrlimit(resource.RLIMIT_FSIZE, (most, limits[1]))
    try:
        process = program.spawn([program.path, *words], stderr=writing)
    finally:
        resource.setrlimit(resource.RLIMIT_FSIZE, limits)
        os.close(writing)
    got = program.wait(process)
    with os.fdopen(reading, "rb") as said:
        return got._replace(stderr=said.read())


def closed(program):
    """How many runs of commands that `streams.py` leaves out had closed streams."""
    for words in EXPLAINED:
        whole = whole_answer(program, words)
        unwritten = Answer(b"", V2, 5)
        for streams, expected in (("<&-", whole), (">&-", unwritten), ("2>&-", whole), (">&- 2>&-", unwritten._replace(stderr=b""))):
            got = program.run_in_shell('exec "$@" ' + streams, words)
            if got != expected:
                raise difference(words, TREE, expected, got)
    return 4 * len(EXPLAINED)


def run(program):
    """How many writes failed, or had a closed stream."""
    program.hold(TREE)
    runs = closed(program)
    for words, step in [(words, 1) for words in ASKED] + [(words, STEP) for words in LONG]:
        whole = whole_answer(program, words)
        length = len(whole.stdout)
        for most in [*range(0, length, step), length - 1]:
            expected = Answer(whole.stdout[:most], V2, 5)
            got = cut(program, words, most)
            if got != expected:
                raise difference(words, TREE, expected, got)
            runs += 1
        if cut(program, words, length) != whole:
            raise Difference("no whole answer to %s where there is room for it" % words)
    return runs
