"""The library of the page beside the program: on the worked examples, and on drawn hosts."""
import os
import re
import tempfile

from drawn import hosts
from page.library import program_answer, reason_against

WORKED = os.path.join(os.path.dirname(os.path.realpath(__file__)), "..", "worked")
OTHER_PATHS = "a module is looked for by a path that is not written as a file in memory is named"
DATA = os.path.join(WORKED, "data").encode()
# As many times more hosts are drawn at most as are to be compared.
MOST_DRAWN = 2


class Differs(Exception):
    """An answer of the library that is not that of the program."""


def same(library, program, words, files, folder):
    wanted, got = program_answer(program, words, folder), library.answer(words, files)
    if got != wanted:
        raise Differs("in place of\n%r\nthe library answers\n%r\nto %r" % (wanted, got, words))


def files_below(folder):
    """The files below a folder, by their paths from there."""
    found = []
    for place, _, names in os.walk(folder):
        for name in names:
            path = os.path.join(place, name)
            with open(path, "rb") as file:
                found.append((os.path.relpath(path, folder), file.read()))
    return sorted(found)


def worked_lines():
    for group in sorted(os.listdir(WORKED)):
        path = os.path.join(WORKED, group, "words")
        if os.path.isfile(path):
            with open(path, "rb") as file:
                yield from (line for line in file.read().split(b"\n")[:-1] if not line.startswith(b"#"))


def asks_for_other_paths(words, files):
    """Whether a module may be looked for by a path that the system resolves, with `.`, `..` or two slashes in it, or by one that is
    there on the running system, where the program looks for an absolute path."""
    options = [word.partition(b"=")[0] for word in words]
    if b"--modules" not in options and b"--root" not in options:
        return False
    if any(part in data for _, data in files for part in (b"./", b"//")):
        return True
    paths = {word for _, data in files for word in re.split(rb"[\s\[\]]+", data) if word.startswith(b"/") and b"\0" not in word}
    return b"--root" not in options and any(os.path.exists(path) for path in paths)


def worked_examples(library, program):
    """How many worked examples are answered alike, and how many were not tried, by the reason why."""
    files = files_below(DATA)
    tops = {path.split(b"/")[0]: [] for path, _ in files}
    for path, data in files:
        tops[path.split(b"/")[0]].append((path, data))
    count, left_out = 0, {}
    for line in worked_lines():
        words = line.split(b" ") if line else []
        reason = reason_against(words)
        if reason:
            left_out[reason] = left_out.get(reason, 0) + 1
            continue
        # Only the files that the words can lead to, since all of them are much.
        given = [file for top, some in tops.items() if any(top in word for word in words) for file in some]
        if asks_for_other_paths(words, given):
            left_out[OTHER_PATHS] = left_out.get(OTHER_PATHS, 0) + 1
            continue
        same(library, program, words, given, DATA)
        count += 1
    return count, left_out


def flat(tree, place=b""):
    """The files of a tree of folders, and whether each folder has one."""
    for name, below in tree.items():
        path = place + (name if isinstance(name, bytes) else name.encode())
        if isinstance(below, dict):
            yield from flat(below, path + b"/")
        else:
            yield path, below


def has_empty_folder(tree):
    return any(isinstance(below, dict) and (not below or has_empty_folder(below)) for below in tree.values())


def drawn_hosts(library, program, number):
    """How many drawn hosts are answered alike, which are as many as are asked for, and how many were passed over for that."""
    count = left_out = 0
    for words, tree in hosts.cases(MOST_DRAWN * number):
        if count == number:
            break
        words = [word if isinstance(word, bytes) else word.encode() for word in words]
        # Files in memory have no folder without a file.
        if reason_against(words) or has_empty_folder(tree):
            left_out += 1
            continue
        files = list(flat(tree))
        if asks_for_other_paths(words, files):
            left_out += 1
            continue
        with tempfile.TemporaryDirectory() as folder:
            for path, data in files:
                place = os.path.join(folder.encode(), path)
                os.makedirs(os.path.dirname(place), exist_ok=True)
                with open(place, "wb") as file:
                    file.write(data)
            same(library, program, words, files, folder)
        count += 1
    return count, left_out
