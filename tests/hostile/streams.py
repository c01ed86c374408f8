"""The program's own streams and files of other kinds: what is closed, full, gone, endless, or no regular file.

Each check is a function of the program; it returns how many runs it made."""
import fcntl
import os
import shutil
import socket
import subprocess
import threading

from hostile.running import Answer, Difference, agrees, difference, write
from model import plain
from model.sources import LOOP, SHUT
from model.stacks import KINDS
from model.faults import MOST_BYTES

STACK = b"auth [success=1 auth_err=die default=ignore] a.so\n" * 12
TREE = {"d": {"login": STACK}, "access": b"-:ALL:ALL\n", "time": b"*;*;*;!Al0000-2400\n", "group": b"adm::1:alice\n",
        "returns": b"a.so success\n"}
SHOW = ["show", "login", "auth", "--dir", "d"]
LONG = ["paths", "login", "auth", "--dir", "d", "--limit", "5000"]
ACCESS = ["access", "login", "--access", "access", "--group", "group", "--user", "alice"]
TIME = ["time", "login", "--time", "time", "--user", "alice", "--at", "2024-05-06T10:00"]
OUTCOMES = ["outcomes", "login", "auth", "--dir", "d"]
GRAPH = ["graph", "login", "auth", "--dir", "d"]
CHECK = ["check", "--dir", "d", "--fail-on", "note"]
COMPARE = ["compare", "d", "d"]
ANSWERED = [SHOW, ["decide", "login", "auth", *["success"] * 12, "--dir", "d"], LONG, OUTCOMES, GRAPH, ACCESS, TIME, CHECK, COMPARE,
            ["version"]]
REFUSED = [["show", "ftp", "auth", "--dir", "d"], ["show", "login", "auth"], ["show"], [*LONG, "--after", "x"],
           ["show", "login", "auth", "--dir", "gone"], ["check", "--dir", "gone"], ["compare", "d", "gone"], ["compare", "d", "--conf"]]
V2 = b"pamcheck: V2 Write\n"
PIPE = 4096


def expect(words, expected, got, tree=None):
    """Refuses another answer."""
    if not agrees(expected, got):
        raise difference(words, TREE if tree is None else tree, expected, got)


def cut_short(words, got, taken):
    """Refuses all but a failed write after a prefix of the answer."""
    whole = plain.answer(words, TREE)[0]
    expected = Answer(whole[:len(taken)], V2, 5)
    expect(words, expected, Answer(taken, got.stderr, got.status))


# Standard output and standard error

def full(program):
    """A device that takes no byte."""
    with open("/dev/full", "wb") as device:
        for words in [*ANSWERED, ["--help"]]:
            expect(words, Answer(b"", V2, 5), program.run(words, stdout=device.fileno()))
    return len(ANSWERED) + 1


def reader_gone(program):
    """A pipe that nobody reads."""
    reading, writing = os.pipe()
    os.close(reading)
    for words in [*ANSWERED, ["--help"]]:
        expect(words, Answer(b"", V2, 5), program.run(words, stdout=writing))
    for words in REFUSED:
        expected = Answer(*plain.answer(words, TREE))._replace(stderr=b"")
        expect(words, expected, program.run(words, stderr=writing))
    os.close(writing)
    return len(ANSWERED) + 1 + len(REFUSED)


def small_pipe():
    """Both ends of a pipe that holds little."""
    reading, writing = os.pipe()
    fcntl.fcntl(writing, fcntl.F_SETPIPE_SZ, PIPE)
    return reading, writing


def reader_goes_away(program):
    """A pipe whose reader takes a part and goes away; and one that would have to wait for its reader."""
    reading, writing = small_pipe()
    process = program.spawn([program.path, *LONG], stdout=writing)
    os.close(writing)
    taken = os.read(reading, 100)
    os.close(reading)
    cut_short(LONG, program.wait(process), taken)
    reading, writing = small_pipe()
    os.set_blocking(writing, False)
    got = program.run(LONG, stdout=writing)
    os.close(writing)
    with os.fdopen(reading, "rb") as left:
        cut_short(LONG, got, left.read())
    return 2


def slow_reader(program):
    """A pipe that takes a little at a time gets the whole answer."""
    reading, writing = small_pipe()
    process = program.spawn([program.path, *LONG], stdout=writing)
    os.close(writing)
    taken = b""
    while piece := os.read(reading, 1000):
        taken += piece
    os.close(reading)
    expect(LONG, Answer(*plain.answer(LONG, TREE)), program.wait(process)._replace(stdout=taken))
    return 1


def file_size_refused(program):
    """A file that may not grow past the first block of the shell's limit."""
    got = program.run_in_shell('trap "" XFSZ; ulimit -f 1; "$@"', LONG)
    cut_short(LONG, got, got.stdout)
    return 1


def closed(program):
    """Streams that are closed from the start, alone and together."""
    for words in ANSWERED + REFUSED:
        answered = Answer(*plain.answer(words, TREE))
        unwritten = Answer(b"", V2, 5) if words in ANSWERED else answered
        for streams, expected in (("<&-", answered), (">&-", unwritten), ("2>&-", answered._replace(stderr=b"")),
                                  ("<&- >&-", unwritten), ("<&- 2>&-", answered._replace(stderr=b"")),
                                  ("<&- >&- 2>&-", unwritten._replace(stderr=b"")),
                                  ("2>/dev/full", answered._replace(stderr=b"")),
                                  (">/dev/full 2>&-", unwritten._replace(stderr=b""))):
            expect(words, expected, program.run_in_shell('exec "$@" ' + streams, words))
    return 8 * len(ANSWERED + REFUSED)


# Folders and files

def check_like(program, words, tree):
    """The answer over what is in the scratch folder, which must be the plain reading's over this tree."""
    expect(words, Answer(*plain.answer(words, tree)), program.run(words), tree)


def make_special(folder):
    """A folder with one entry of each kind; its regular files, links followed, are returned."""
    login = b"auth required a.so\nauth include linked\n"
    os.mkdir(folder)
    for name, data in (("login", login), ("file", b"auth optional b.so\n")):
        with open(os.path.join(folder, name), "wb") as file:
            file.write(data)
    os.symlink("file", folder + "/linked")
    os.symlink("loop", folder + "/loop")
    os.symlink("gone", folder + "/dangling")
    os.symlink("/dev/zero", folder + "/device")
    os.symlink(".", folder + "/itself")
    os.mkdir(folder + "/folder")
    os.mkfifo(folder + "/fifo")
    listener = socket.socket(socket.AF_UNIX)
    listener.bind(folder + "/socket")
    listener.close()
    return {"login": login, "file": b"auth optional b.so\n", "linked": b"auth optional b.so\n"}


def special_entries(program):
    """Entries that are no regular files are passed over; services and targets of their names have no file."""
    tree = {"special": make_special("special")}
    names = ["login", "loop", "dangling", "device", "itself", "folder", "fifo", "socket"]
    for name in names:
        check_like(program, ["show", name, "auth", "--dir", "special"], tree)
    for name in names[1:]:
        tree["special"]["asks"] = b"auth substack %s\n" % name.encode()
        with open("special/asks", "wb") as file:
            file.write(tree["special"]["asks"])
        check_like(program, ["show", "asks", "auth", "--dir", "special"], tree)
    shutil.rmtree("special")
    return 2 * len(names) - 1


def links_to_nowhere(program):
    """Links to names and paths that no file can have, and through a file, are passed over; an entry whose own path is too
    long is not."""
    os.mkdir("links")
    with open("links/login", "wb") as file:
        file.write(STACK)
    targets = {"name": "n" * 300, "path": "p/" * 2047, "below": "login/x", "gone": "gone/x", "ring": "ring"}
    for name, target in targets.items():
        os.symlink(target, "links/" + name)
    tree = {"links": {"login": STACK}}
    for name in ["login", *targets]:
        check_like(program, ["show", name, "auth", "--dir", "links"], tree)
    deep = "./" * 2042 + "links"
    words = ["show", "login", "auth", "--dir", deep]
    os.symlink("login", "links/" + "l" * 100)
    expect(words, Answer(b"", b"pamcheck: V1 Read %s\n" % (b"l" * 100), 5), program.run(words), tree)
    shutil.rmtree("links")
    return 2 + len(targets)


class OtherUser:
    """A user who may not read all files: the present one, or, for root, `nobody`, where there is such a user and it may
    run the program."""

    def __init__(self, program):
        self.program = program
        self.before = ""
        self.exists = True
        if os.geteuid() == 0:
            self.before = "setpriv --reuid=nobody --clear-groups --"
            os.chmod(".", 0o755)
            may_run = self.before + ' sh -c \'[ -x "$0" ] && [ -x . ]\' "$0"'
            tried = subprocess.run(["/bin/sh", "-c", may_run, program.path], stderr=subprocess.DEVNULL)
            self.exists = tried.returncode == 0

    def run(self, words):
        return self.program.run_in_shell('exec %s "$@"' % self.before, words)


def checks_of_some(user):
    """A check goes on past a file that may not be read: services that take no rules from it are checked. It is a service, a file that
    others include, or `other`."""
    rules = b"".join(b"%s required pam_unix.so nulok\n" % kind for kind in KINDS)
    folder = {"su": rules, "sudo": b"auth include login\n" + rules, "cron": b"@include common\n", "ftp": b"auth required pam_unix.so\n",
              "common": rules, "other": b"auth include common\n" + rules, "Login": rules, "login": STACK, "x.bak": b""}
    files = {"facts": b"pam_gone checks\n", "accept": b"S11 x.bak\nS15 su:1\n"}
    runs = 0
    for names in (["login"], ["common"], ["other"], ["login", "other", "su"], list(folder)):
        os.mkdir("some")
        for name, data in folder.items():
            write("some/" + name, data)
            os.chmod("some/" + name, 0 if name in names else 0o644)
        for name, data in files.items():
            write(name, data)
        tree = {**files, "some": {**folder, **dict.fromkeys(names, SHUT)}}
        for words in ([], ["su"], ["login", "cron"], ["--json"], ["--format", "sarif"], ["--facts", "facts", "--accept", "accept"], ["gone"],
                      ["--fail-on", "note"], ["--modules", "some"]):
            check = ["check", *words, "--dir", "some"]
            expect(check, Answer(*plain.answer(check, tree)), user.run(check), tree)
            runs += 1
        for name in names:
            os.chmod("some/" + name, 0o644)
        shutil.rmtree("some")
    for name in files:
        os.remove(name)
    return runs


def unreadable(program):
    """A regular file, a link through a folder, and a folder that may not be read."""
    user = OtherUser(program)
    if not user.exists:
        print("hostile: files that may not be read are no cases here: the user is root, and none else runs the program")
        return 0
    os.mkdir("shut")
    with open("shut/login", "wb") as file:
        file.write(STACK)
    os.chmod("shut/login", 0)
    words = ["show", "other", "auth", "--dir", "shut"]
    expect(words, Answer(b"", b"pamcheck: V1 Read login\n", 5), user.run(words))
    checks = checks_of_some(user)
    os.makedirs("closed/inner")
    os.chmod("closed", 0)
    os.remove("shut/login")
    os.symlink("../closed/inner/login", "shut/linked")
    expect(words, Answer(b"", b"pamcheck: V1 Read linked\n", 5), user.run(words))
    os.chmod("shut", 0)
    expect(words, Answer(b"", b"pamcheck: V1 Read shut\n", 5), user.run(words))
    for name in ("shut", "closed"):
        os.chmod(name, 0o700)
        shutil.rmtree(name)
    return 3 + checks


def sources(program):
    """Sources and tables that are no folder, no file, a loop of links, empty or endless."""
    os.symlink("ring", "ring")
    os.symlink("d", "link")
    os.mkdir("empty")
    runs = 0
    for name in ("ring", "access", "gone", "link", "empty", "d/login/x"):
        tree = {**TREE, "ring": LOOP, "link": TREE["d"], "empty": {}}
        check_like(program, ["show", "login", "auth", "--dir", name], tree)
        runs += 1
    endless = {**TREE, "ring": LOOP, "/dev/zero": b"\0" * 1048577, "/dev/null": b""}
    known = ["login", "auth", "--dir", "d", "--user", "alice", "--at", "2024-05-06T10:00"]
    base = ["paths", *known, "--limit", "3"]
    for name in ("ring", "d", "gone", "/dev/zero", "/dev/null"):
        check_like(program, ["show", "login", "auth", "--conf", name], endless)
        check_like(program, ["show", "login", "auth", "--dir", "d", "--with", "login=" + name], endless)
        for option in ("--access", "--group", "--time", "--returns"):
            check_like(program, [*base, option, name], endless)
            for command in ("outcomes", "graph"):
                check_like(program, [command, *known, option, name], endless)
        check_like(program, ["access", "login", "--user", "a", "--access", name], endless)
        check_like(program, ["access", "login", "--user", "a", "--access", "access", "--group", name], endless)
        check_like(program, ["time", "login", "--user", "a", "--time", name, "--at", "2024-05-06T10:00"], endless)
        check_like(program, [*base, "--returns", "gone", "--time", "gone2", "--access", name, "--group", "d"], endless)
        runs += 18
    os.remove("ring")
    os.remove("link")
    os.rmdir("empty")
    return runs


def names(program):
    """Names of 255 bytes and of odd characters, and some that are not UTF-8."""
    longest, wide = "n" * 255, "\u00e9" * 127
    odd = ["a b", "line\nfeed", "[x", "*", "-", "\\", "."]
    include = b"auth include %s\nauth substack [%s]\n" % (longest.encode(), wide.encode())
    tree = {"names": {"login": include, longest: b"auth required a.so\n", wide: b"auth sometimes b.so\n",
                      **{name: b"auth required [%s]\n" % name.encode() for name in odd[:-1]}}}
    os.mkdir("names")
    for name, data in tree["names"].items():
        with open("names/" + name, "wb") as file:
            file.write(data)
    for service in ["login", longest, wide, *odd, "n" * 256, "N" * 255, "N" * 100000]:
        check_like(program, ["show", service, "auth", "--dir", "names"], tree)
    with open(b"names/not\xffutf8", "wb"):
        pass
    words = ["show", "login", "auth", "--dir", "names"]
    expect(words, Answer(b"", b"pamcheck: V1 Read names\n", 5), program.run(words), tree)
    shutil.rmtree("names")
    return 7 + len(odd) + names_of_modules(program)


def names_of_modules(program):
    """Names of modules that are not UTF-8: a file and a folder, which count as there, and one that is not there."""
    rules = b"auth required pam_a.so\nauth required x\xff.so\nauth required y\xff.so\nauth required z\xff.so\n"
    tree = {"d": {"login": rules}, "mods": {"pam_a.so": b"", "x\udcff.so": b"", "y\udcff.so": {}},
            "root": {"etc": {"pam.d": {"login": rules}}, "lib": {"security": {"pam_a.so": b"", "x\udcff.so": b""}, "\udcff-linux-gnu": {}}}}
    cases = [["check", "--dir", "d", "--modules", "mods"], ["check", "--root", "root"],
             ["outcomes", "login", "auth", "--dir", "d", "--modules", "mods"]]
    program.hold(tree)
    for words in cases:
        check_like(program, words, tree)
    program.hold(TREE)
    return len(cases)


def many_entries(program):
    """A folder of 100,000 entries."""
    os.mkdir("many")
    for number in range(100000):
        with open("many/%d" % number, "wb") as file:
            file.write(STACK)
    tree = {"many": {"77777": STACK}}
    for service in ("77777", "gone"):
        check_like(program, ["show", service, "auth", "--dir", "many"], tree)
    shutil.rmtree("many")
    return 2


class Growing:
    """While it is entered, a file grows by a comment, byte by byte, up to a length."""

    def __init__(self, name, front, most):
        self.name, self.front, self.most, self.done = name, front, most, threading.Event()

    def grow(self, file):
        for _ in range(self.most - len(self.front)):
            if self.done.is_set():
                return
            file.write(b"#")

    def __enter__(self):
        self.file = open(self.name, "wb", buffering=0)
        self.file.write(self.front)
        self.thread = threading.Thread(target=self.grow, args=[self.file])
        self.thread.start()

    def __exit__(self, *_):
        self.done.set()
        self.thread.join()
        self.file.close()


def growing(program):
    """A file that grows while it is read: what was read of it is answered, or that it is too long."""
    os.mkdir("grows")
    words = ["show", "login", "auth", "--dir", "grows"]
    whole = Answer(*plain.answer(words, {"grows": {"login": STACK}}))
    too_long = Answer(*plain.answer(words, {"grows": {"login": b"#" * (MOST_BYTES + 1)}}))
    runs = 0
    for filled, most in ((1000, 10 ** 6), (MOST_BYTES - len(STACK) - 400, MOST_BYTES + 400)):
        for _ in range(30):
            with Growing("grows/login", STACK + b"#" * filled, most):
                got = program.run(words)
            if not agrees(whole, got) and not (most > MOST_BYTES and agrees(too_long, got)):
                raise difference(words, TREE, whole, got)
            runs += 1
    shutil.rmtree("grows")
    return runs


def open_files_refused(program):
    """A limit on open files: the whole answer, a file that cannot be read, or a program that does not start."""
    words = ["show", "login", "auth", "--dir", "d"]
    whole = Answer(*plain.answer(words, TREE))
    for most in range(3, 9):
        got = program.run_in_shell('ulimit -n %d; exec "$@"' % most, words)
        unread = got.status == 5 and not got.stdout and got.stderr.startswith(b"pamcheck: V1 Read ")
        if not agrees(whole, got) and not unread and got.status != 127:
            raise difference(words, TREE, whole, got)
    if not agrees(whole, got):
        raise Difference("a folder of one file cannot be read with %d open files" % most)
    return 6


CHECKS = [full, reader_gone, reader_goes_away, slow_reader, file_size_refused, closed]
FILES = [special_entries, links_to_nowhere, unreadable, sources, names, many_entries, growing, open_files_refused]


def run(program, checks):
    """How many runs these checks made."""
    program.hold(TREE)
    return sum(check(program) for check in checks)
