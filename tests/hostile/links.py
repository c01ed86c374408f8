"""Folders with links: that one leads out of its folder is noted (S27), and no finding tells a word of what is there.

Each case is a folder with links, and what is read of it. Expected is the plain reading's answer, in which the files that links lead to
out of the folder are marked. What lies outside has a word that nothing else has, in each place of a line that a finding may quote."""
import os
import shutil
from collections import namedtuple

from hostile import refusals
from hostile.roots import make
from hostile.running import Answer, Difference
from hostile.streams import expect
from model import plain
from model.sources import DEAD, Outside

WORD = b"sEcReT"
ACCOUNT = b"account required pam_unix.so\n"
SHADOW = b"root:$6$%s:19000:0:99999:7:::\n" % WORD
RULES = b"".join(line % WORD + b"\n" for line in (
    b"auth %s pam_unix.so", b"%s required pam_unix.so", b"auth [%s=ok] pam_unix.so", b"auth [success=%s] pam_unix.so", b"auth include %s",
    b"@include %s", b"auth required pam_%s.so", b"auth required pam_unix.so %s", b"auth required pam_unix.so nullok%s",
    b"auth required pam_faillock.so deny=%s", b"auth required /%s/pam_unix.so"))
OPEN = b"auth [default=ignore] pam_%s.so\nauth optional pam_permit.so\n" % WORD + ACCOUNT
INSIDE = b"auth requird pam_unix.so\n" + ACCOUNT
OTHER = b"auth required pam_deny.so\naccount required pam_deny.so\n"
TEXTS = {"shadow": SHADOW, "rules": RULES, "open": OPEN}

Case = namedtuple("Case", "links seen")


def outside():
    """The files outside of the folders: `back` leads into the folder, and `on` to another file outside."""
    make("out", TEXTS, {"back": "../d/inside", "on": "shadow"})


def cases():
    """Links in the folder `d`, and what is read of it by them; an entry that is not read has `None`."""
    here = os.getcwd()
    for name, text in TEXTS.items():
        for target in ("../out/" + name, here + "/out/" + name, "../d/../out/" + name, "sub/../../out/" + name, "here/../out/" + name):
            yield Case({"x": target}, {"x": Outside(text)})
    yield Case({"x": "../out/on", "y": "x"}, {"x": Outside(SHADOW), "y": Outside(SHADOW)})
    yield Case({"x": "y", "y": "z", "z": "../out/shadow"}, dict.fromkeys("xyz", Outside(SHADOW)))
    yield Case({"x": "y", "y": "inside"}, dict.fromkeys("xy", INSIDE))
    for target in ("inside", "./inside", "../d/inside", here + "/d/inside", "../linked/inside", here + "/linked/../d/inside", "sub/../inside",
                   "here/inside", "../out/back", "../out/../d/./inside"):
        yield Case({"x": target}, {"x": INSIDE})
    yield Case({"x": "sub/file"}, {"x": Outside(SHADOW)})
    for target in ("gone", "../out/gone", "x", "inside/x"):
        yield Case({"x": target}, {"x": DEAD})
    yield Case({"x": "gone", "other": "x"}, {"x": DEAD, "other": DEAD})
    for target in ("../out", "/dev/zero"):
        yield Case({"x": target}, {})
    yield Case({"x": "../out/open", "login": "x"}, {"x": Outside(OPEN), "login": Outside(OPEN)})


def requests():
    """What is asked of the folder, whose files include what may lie outside, by several of its names."""
    for folder in ("d/", "./d", "d/../d", "linked", os.getcwd() + "/d"):
        yield ["check", "--dir", folder]
    for words in (["check"], ["check", "--modules", "m"], ["check", "x"], ["check", "reads", "--fail-on", "note"], ["check", "--with", "x=d/x"]):
        yield [*words, "--dir", "d"]
    yield ["check", "--dir", "d", "--vendor-dir", "v"]
    yield ["check", "--dir", "v", "--vendor-dir", "d"]


def tells_nothing(words, got):
    """Refuses an answer with a word that stands outside alone."""
    if WORD in got.stdout + got.stderr:
        raise Difference("%s tells a word of what lies outside: %r" % (" ".join(words), got))


def tree_of(case):
    """What is read by each name of the folder."""
    folder = {"inside": INSIDE, "other": OTHER, "reads": b"auth include x\nauth include inside\n" + ACCOUNT,
              "opens": b"auth include x\n" + ACCOUNT, "sub": {"file": SHADOW}, **case.seen}
    tree = {"d": folder, "v": {"more": INSIDE, "led": Outside(INSIDE)}, "m": {"pam_unix.so": b"", "pam_deny.so": b""}}
    return {**tree, "linked": folder, os.getcwd() + "/d": folder}


def over_cases(program):
    """Each request over each folder, by several of its names, as text, as JSON and with lines of files."""
    runs = 0
    for case in cases():
        tree = tree_of(case)
        files = {name: data for name, data in tree["d"].items() if name not in case.links and name != "sub"}
        make("d", {**files, "sub/file": SHADOW}, {"here": ".", **case.links})
        for asked in requests():
            if "--with" in asked and not isinstance(case.seen.get("x"), bytes):
                continue
            for words in (asked, [*asked, "--json"], [*asked, "--format", "full"]):
                got = program.run(words)
                expect(words, Answer(*plain.answer(words, tree)), got, tree)
                if "--with" not in words:
                    tells_nothing(words, got)
                runs += 1
        shutil.rmtree("d")
    return runs


def refused(program):
    """An allocation that is refused while a link is looked at ends the run."""
    shared = refusals.library()
    if shared is None:
        return 0
    make("d", {"other": OTHER}, {"x": "../out/shadow", "y": "x"})
    words, runs = ["check", "--dir", "d"], 0
    whole = program.run(words)
    for later in (0, 1):
        for got in refusals.answers(program, words, shared, later):
            if got != whole and (got.status != 6 or got.stdout):
                raise Difference("an allocation is refused to %s, which answers %r" % (" ".join(words), got))
            tells_nothing(words, got)
            runs += 1
    shutil.rmtree("d")
    return runs


def run(program):
    """How many runs were made."""
    program.hold({})
    outside()
    make("v", {"more": INSIDE}, {"led": "../out/back"})
    make("m", {"pam_unix.so": b"", "pam_deny.so": b""})
    os.symlink("d", "linked")
    count = over_cases(program) + refused(program)
    os.remove("linked")
    for name in ("out", "v", "m"):
        shutil.rmtree(name)
    return count
