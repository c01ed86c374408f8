"""Allocations refused one by one: the program with the first one refused, then with the second one, and so on until a run
meets no refusal; then again with all later ones refused too. The phases of a request, each with the answer that is due
in it, must come in their order, none left out; `tests/hostile/memory.py` has them.

A library that is loaded before that of C takes the place of its allocator. It needs a C compiler; without one, what
`tests/hostile/memory.py` does is left."""
import os
import shutil
import subprocess
from itertools import groupby

from hostile.memory import ASKED, TREE, UNSAID, answer_of
from hostile.running import Answer, Difference, agrees, difference
from model import plain

COMPILER = "cc"
LIBRARY = r"""
#include <fcntl.h>
#include <stdlib.h>
#include <unistd.h>

void *__libc_malloc(size_t);
void *__libc_realloc(void *, size_t);

static long calls, refused, later;

__attribute__((constructor)) static void begin(void) {
    refused = atol(getenv("REFUSED"));
    later = atol(getenv("LATER"));
    calls = 0;
}

static int is_refused(void) {
    calls++;
    if (calls != refused && !(later && calls > refused && refused)) return 0;
    close(open("met", O_CREAT | O_WRONLY, 0600));
    return 1;
}

void *malloc(size_t size) { return is_refused() ? 0 : __libc_malloc(size); }
void *realloc(void *old, size_t size) { return is_refused() ? 0 : __libc_realloc(old, size); }
"""


def library():
    """The library, built in the scratch folder; None where there is no C compiler that can build it."""
    if shutil.which(COMPILER) is None:
        return None
    with open("refusing.c", "w") as file:
        file.write(LIBRARY)
    command = [COMPILER, "-O1", "-fno-builtin", "-shared", "-fPIC", "-o", "refusing.so", "refusing.c"]
    built = subprocess.run(command, stdout=subprocess.DEVNULL, stderr=subprocess.DEVNULL)
    return os.path.abspath("refusing.so") if built.returncode == 0 else None


def answers(program, words, shared, later):
    """What is answered with each allocation refused in turn, until a run meets no refusal; the last is that run's."""
    found = []
    while not found or os.path.exists("met"):
        if found:
            os.remove("met")
        commands = 'REFUSED=%d LATER=%d LD_PRELOAD=%s exec "$@"' % (len(found) + 1, later, shared)
        found.append(program.run_in_shell(commands, words))
    return found


def due_in_turn(phases, whole, later):
    """The answers that are due, phase by phase. Where all later allocations are refused too, no line has memory."""
    if not later:
        return [answer_of(phase, whole) for phase in phases] + [whole]
    unsaid = [answer_of(UNSAID, whole)] if UNSAID in phases else []
    return [Answer(b"", b"", 6), *unsaid, whole]


def judge(words, due, found, later):
    """Each answer must be that of the phase of the one before it, or of the next phase; none is left out."""
    phases = [answer for answer, _ in groupby(due)]
    place = 0
    for number, got in enumerate(found, 1):
        if agrees(phases[place], got):
            continue
        place += 1
        if place == len(phases) or number == 1 or not agrees(phases[place], got):
            raise Difference("allocation %d refused%s\n%s" % (number, ", and the later ones" * later,
                                                             difference(words, TREE, phases[min(place, len(phases) - 1)], got)))
    whole = due[-1]
    if place < len(phases) - 1 or sum(agrees(whole, got) for got in found) != sum(answer == whole for answer in due):
        raise Difference("not one whole answer for each list that is kept\n%s" % difference(words, TREE, whole, found[-1]))


def refused_in_turn(program, words, phases, shared, later):
    """How many allocations of a request were refused."""
    whole = Answer(*plain.answer(words, TREE))
    found = answers(program, words, shared, later)
    judge(words, due_in_turn(phases, whole, later), found, later)
    return len(found) - 1


def refused(program):
    """How many allocations were refused, or why none was."""
    shared = library()
    if shared is None:
        return 0, "there is no C compiler that builds the library, so no allocation was refused by itself"
    program.hold(TREE)
    return sum(refused_in_turn(program, words, phases, shared, later)
               for words, phases in ASKED if "big" not in words for later in (0, 1))
