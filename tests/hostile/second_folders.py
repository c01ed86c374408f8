"""Files that are found in a second folder, one after another: how deep they may include each other, how many files are followed,
and which of two files of one name counts."""

from hostile import compared

OTHER = b"auth required pam_deny.so\n"
STACK = ["login", "auth"]
CHECK = ["check"]
POLICY = ["policy", "p"]
RULES = b"* auth needs m3 or pam_deny\n* * never asks m0\nlogin auth can fail\n"
ASKED = [["check", "login"], ["show", *STACK], ["outcomes", *STACK], ["graph", *STACK], ["paths", *STACK, "--limit", "2"]]
DEPTH = 16
MOST_FOLLOWED = 256
MANY = 3000


def chain(length, last):
    """Files that include each other, in turn from the first and the second folder, of which the last has this text."""
    folders = [{}, {}]
    names = ["login", *("part%d" % number for number in range(1, length))]
    for number, name in enumerate(names):
        text = b"auth include %s\n" % names[number + 1].encode() if number + 1 < length else last
        folders[number % 2][name] = b"auth optional m%d.so\n" % number + text
    return folders


def followed(count):
    """A file that includes a number of files, each of which only the second folder has."""
    login = b"".join(b"auth substack s%d\n" % number for number in range(count))
    return [{"login": login}, {"s%d" % number: b"-auth [default=ignore] [m %d.so]\n" % (number % 9) for number in range(count)}]


def many():
    """Two folders of many files; half of the names of each are those of the other, which counts only for the first."""
    first = {"service%d" % number: b"@include common%d\n" % (number % 7) for number in range(MANY)}
    second = {"service%d" % number: b"auth requird a.so\n" for number in range(MANY // 2)}
    second.update({"common%d" % number: b"auth required m%d.so\n" % number for number in range(7)})
    return [first, second]


FOLDERS = [chain(2, b"auth required a.so\n"), chain(DEPTH, b"auth required a.so\n"), chain(DEPTH + 1, b"auth required a.so\n"),
           chain(DEPTH, b"auth include login\n"), chain(5, b"auth include part3\n"), chain(5, b"auth include gone\n"),
           followed(MOST_FOLLOWED), followed(MOST_FOLLOWED + 1), [{}, {"login": OTHER}], [{"Login": OTHER}, {"other": OTHER, "login": b""}]]


def run(program):
    """How many answers over two folders were tried, by `--vendor-dir` and below a root."""
    runs = 0
    for first, second in FOLDERS:
        tree = {"p": RULES, "d": first, "v": second, "r": {"etc": {"pam.d": first}, "usr": {"lib": {"pam.d": second}}}}
        program.hold(tree)
        for source in (["--dir", "d", "--vendor-dir", "v"], ["--vendor-dir=d", "--dir=v"], ["--root", "r"]):
            # The plain reading takes seconds to check some hundred services.
            for words in ASKED if len(second) >= MOST_FOLLOWED else [CHECK, POLICY, *ASKED]:
                program.check([*words, *source], tree)
                runs += 1
        compared.judged(program, [b"compare", b"r", b"r", b"--root"], tree)
        runs += 1
    first, second = many()
    tree = {"d": first, "v": second}
    program.hold(tree)
    program.check(["check", "--dir", "d", "--vendor-dir", "v", "service1", "service%d" % (MANY - 1)], tree)
    program.check(["show", "service2", "auth", "--dir", "d", "--vendor-dir", "v"], tree)
    program.hold({})
    return runs + 2
