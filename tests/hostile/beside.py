"""The two ways in which the program finds paths, side by side on drawn stacks: `paths` explores them one after another,
`paths --decision` with every decision follows the graph of the run, and `outcomes` counts over it.

All pages of both must be the same, from the start, after a cursor and before one; and the lines of `outcomes` must be what
a whole listing adds up to."""
from collections import Counter

from drawn.files import SEED, Drawing
from hostile.running import Difference, shown
from model.stacks import CODES

LIMIT = 300
MODULES = [b"a.so", b"b.so", b"c.so", b"d.so"]
ACTIONS = [b"ok", b"ok", b"bad", b"bad", b"ignore", b"done", b"die", b"reset", b"reset", b"1", b"2", b"3"]
KEYWORDS = [b"required", b"requisite", b"sufficient", b"optional"]
SOME_CODES = [b"success", b"auth_err", b"perm_denied", b"user_unknown", b"ignore", b"new_authtok_reqd"]
EVERY_DECISION = b",".join(CODES)


def control(drawing):
    """A control: a keyword, or actions for a few codes and for all others."""
    if drawing.random.random() < 0.4:
        return drawing.of(KEYWORDS)
    pairs = [code + b"=" + drawing.of(ACTIONS) for code in drawing.random.sample(SOME_CODES, drawing.random.randint(0, 3))]
    return b"[" + b" ".join([*pairs, b"default=" + drawing.of(ACTIONS)]) + b"]"


def file(drawing, targets, most):
    """The lines of a file, some of which enter one of these substacks."""
    lines = [b"auth substack " + drawing.of(targets) if targets and drawing.random.random() < 0.3
             else b"auth " + control(drawing) + b" " + drawing.of(MODULES)
             for _ in range(drawing.random.randint(1, most))]
    return b"\n".join(lines) + b"\n"


def tree(drawing):
    """A stack of a service, with substacks two deep, and a returns file."""
    folder = {"login": file(drawing, [b"one", b"two"], 6), "one": file(drawing, [b"two"], 3), "two": file(drawing, [], 3)}
    known = b"".join(name + b" " + b" ".join(drawing.some(SOME_CODES, 1, 3)) + b"\n"
                     for name in drawing.random.sample(MODULES, drawing.random.randint(0, 3)))
    return {"d": folder, "returns": known}


def answered(program, words):
    """The lines of an answer, which must be one."""
    got = program.run(words)
    if got.status != 0 or got.stderr:
        raise Difference("no answer: %s\nstatus %d, %s" % (words, got.status, shown(got.stderr)))
    return got.stdout.splitlines()


def same_pages(program, words, part):
    """The lines of a page that is explored, which must be those of the page from the graph."""
    explored = answered(program, ["paths", *words, *part])
    followed = answered(program, ["paths", *words, *part, "--decision", EVERY_DECISION])
    if explored != followed:
        raise Difference("two pages: %s %s\nexplored %s\nfrom the graph %s"
                         % (words, part, shown(b"\n".join(explored)), shown(b"\n".join(followed))))
    return explored


def same_counts(program, words, paths):
    """Compares `outcomes` with the paths of a whole listing."""
    counted = Counter(line.split()[1] for line in paths)
    first = {}
    for line in paths:
        cursor, decision = line.split()[:2]
        first.setdefault(decision, cursor)
    expected = [b"%s %d ways, first %s" % (code, counted[code], first[code]) for code in CODES if code in counted]
    *lines, total = answered(program, ["outcomes", *words])[1:]
    if [line.partition(b":")[0] for line in lines] != expected or total != b"total %d ways" % len(paths):
        raise Difference("two counts: %s\nlisted %s\ncounted %s" % (words, expected, lines))


def run(program, count):
    """How many stacks were asked both ways."""
    drawing = Drawing(SEED)
    for number in range(count):
        files = tree(drawing)
        program.hold(files)
        words = ["login", "auth", "--dir", "d", *(["--returns", "returns"] if number % 2 else [])]
        try:
            page = same_pages(program, words, ["--limit", b"%d" % LIMIT])
            paths = page[1:-1]
            if paths:
                cursor = drawing.of(paths).split()[0]
                for side in (b"--after=", b"--before="):
                    same_pages(program, words, ["--limit", b"%d" % drawing.random.randint(1, LIMIT), side + cursor])
            if page[-1].startswith(b"end "):
                same_counts(program, words, paths)
        except Difference as found:
            raise Difference("%s\nfiles: %s" % (found, files)) from None
    return count
