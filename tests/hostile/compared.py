"""Runs `compare` over drawn pairs in both orders, and judges its answers by the plain reading."""

from drawn import pairs
from hostile.running import Answer, agrees, difference
from model import compare, plain
from model.faults import Fault

MIRRORED = {b" admits:": b" refuses:", b" refuses:": b" admits:", b" tells:": b" tells:"}


def judged(program, words, tree):
    """The answer of a comparison, which the plain reading must allow."""
    got = program.run(words)
    try:
        status = plain.Request([b"compare", *words[1:]]).comparison(tree).judge(got.stdout)
    except Fault as fault:
        expected = Answer(b"", plain.fault_line(fault, [b"compare", *words[1:]]), fault.status())
        if not agrees(expected, got):
            raise difference(words, tree, expected, got) from None
    except compare.Wrong as wrong:
        raise difference(words, tree, Answer(str(wrong).encode(), b"", 0), got) from None
    else:
        if got.status != status or got.stderr:
            raise difference(words, tree, Answer(b"", b"", status), got)
    return got


def changes(answer):
    """The stacks with their changes, as far as these do not depend on the order."""
    return {(line.partition(change)[0], change) for line in answer.stdout.splitlines() for change in MIRRORED if change in line}


def run(program, count):
    """How many pairs were compared in both orders."""
    for rest, old, new, files in pairs.cases(count):
        tree = {"old": old, "new": new, **files}
        program.hold(tree)
        there = judged(program, [b"compare", b"old", b"new", *rest], tree)
        back = judged(program, [b"compare", b"new", b"old", *rest], tree)
        if b"only in" not in there.stdout and changes(there) != {(head, MIRRORED[change]) for head, change in changes(back)}:
            raise difference([b"compare", b"old", b"new", *rest], tree, back, there)
    return count
