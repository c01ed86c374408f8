"""Runs the program over files, and compares what it answers with the plain reading."""
import ctypes
import os
import shlex
import signal
import tempfile
from collections import namedtuple
from concurrent.futures import ProcessPoolExecutor

from model import picture, plain

Answer = namedtuple("Answer", "stdout stderr status")

# A run that has not ended by then hangs; how long runs take is measured in benches/.
SECONDS = 60
PR_SET_CHILD_SUBREAPER = 36


class Difference(Exception):
    """What is told where an answer is not the expected one."""


def shown(data):
    """Bytes for a message, cut where they are long."""
    return repr(data) if len(data) <= 2000 else "%r and so on, %d bytes" % (data[:2000], len(data))


def difference(words, tree, expected, got):
    """The words, the files and both answers."""
    lines = ["words: " + shlex.join(os.fsdecode(word)[:300] for word in words)]
    for name, data in flat(tree).items():
        lines.append("file %s: %s" % (name, shown(data)))
    lines += [told("expected", expected), told("got", got)]
    return Difference("\n".join(lines))


def told(title, answer):
    stderr = "a text of the parser" if answer.stderr is None else shown(answer.stderr)
    return "%s: status %d, standard output %s, standard error %s" % (title, answer.status, shown(answer.stdout), stderr)


def shown_by(text):
    """What is compared of standard output: the text, but of a picture what it shows."""
    return picture.told(text) if text.startswith(b"<svg ") else text


def agrees(expected, got):
    """Whether an answer is the expected one, where the text of the parser may be any text."""
    if expected.stderr is None:
        same = bool(got.stderr) and not got.stderr.startswith(b"pamcheck: ")
    else:
        same = expected.stderr == got.stderr
    return same and expected.stdout == shown_by(got.stdout) and expected.status == got.status


def flat(tree):
    """The files of a tree by their paths."""
    files = {}
    for name, data in tree.items():
        if isinstance(data, dict):
            files.update({name + "/" + entry: bytes_ for entry, bytes_ in flat(data).items()})
        else:
            files[name] = data
    return files


def folders(tree):
    """The folders of a tree by their paths, each before those in it."""
    paths = []
    for name, data in tree.items():
        if isinstance(data, dict):
            paths += [name, *(name + "/" + entry for entry in folders(data))]
    return paths


def write(name, data):
    """Makes or changes a file. It is not emptied first, after which some file systems wait for the disk."""
    descriptor = os.open(name, os.O_WRONLY | os.O_CREAT, 0o644)
    with os.fdopen(descriptor, "wb") as file:
        file.write(data)
        file.truncate()


class Stream:
    """A file in memory for what a run writes."""

    def __init__(self):
        self.descriptor = os.memfd_create("stream")

    def take(self):
        """What was written, which is then forgotten."""
        size = os.fstat(self.descriptor).st_size
        data = os.pread(self.descriptor, size, 0) if size else b""
        os.ftruncate(self.descriptor, 0)
        os.lseek(self.descriptor, 0, os.SEEK_SET)
        return data


class Program:
    """The program, run in the present folder, and the files that this folder has."""

    def __init__(self, path):
        self.path = path
        self.files = {}
        self.folders = []
        self.out = Stream()
        self.err = Stream()
        ctypes.CDLL(None).prctl(PR_SET_CHILD_SUBREAPER, 1)

    def hold(self, tree):
        """Leaves the files and folders of this tree in the folder, and no others of an earlier tree."""
        wanted, kept = flat(tree), folders(tree)
        for name in self.files.keys() - wanted.keys():
            os.remove(name)
        for name in reversed(self.folders):
            if name not in kept and not os.listdir(name):
                os.rmdir(name)
        for name in kept:
            os.makedirs(name, exist_ok=True)
        for name, data in wanted.items():
            if self.files.get(name) != data:
                os.makedirs(os.path.dirname(name) or ".", exist_ok=True)
                write(name, data)
        self.files, self.folders = wanted, kept

    def run(self, words, stdout=None, stderr=None):
        """The answer to these words; its streams go to descriptors that are given, or are taken up."""
        return self.wait(self.spawn([self.path, *words], stdout, stderr))

    def run_in_shell(self, commands, words):
        """The answer of `"$@"`, the program with these words, in a shell with these commands before it."""
        return self.wait(self.spawn(["/bin/sh", "-c", commands, "sh", self.path, *words]))

    def spawn(self, command, stdout=None, stderr=None):
        streams = [(os.POSIX_SPAWN_OPEN, 0, "/dev/null", os.O_RDONLY, 0),
                   (os.POSIX_SPAWN_DUP2, self.out.descriptor if stdout is None else stdout, 1),
                   (os.POSIX_SPAWN_DUP2, self.err.descriptor if stderr is None else stderr, 2)]
        return os.posix_spawn(command[0], command, os.environ, file_actions=streams, setsigdef=[signal.SIGPIPE])

    def wait(self, process):
        """The answer of a process, which must end in time."""
        return Answer(*self.waited(process)[:3])

    def waited(self, process):
        signal.setitimer(signal.ITIMER_REAL, SECONDS)
        try:
            _, status, usage = os.wait4(process, 0)
        except TimeoutError:
            os.kill(process, signal.SIGKILL)
            raise Difference("a run did not end in %d seconds" % SECONDS) from None
        finally:
            signal.setitimer(signal.ITIMER_REAL, 0)
        return self.out.take(), self.err.take(), os.waitstatus_to_exitcode(status), usage.ru_maxrss * 1024

    def measured(self, limits, words):
        """The answer under limits of the shell, and the most bytes of memory that the run took.

        A child that is forked from here would count this process's own memory too. So a shell leaves the program to this
        process, which asked for such children, and the program begins once that shell has ended."""
        os.mkfifo("begin")
        script = limits + '; { read -r _ <begin; exec "$@"; } & echo $! >process'
        shell = self.spawn(["/bin/sh", "-c", script, "sh", self.path, *words])
        os.waitpid(shell, 0)
        with open("process", encoding="ascii") as file:
            process = int(file.read())
        with open("begin", "w", encoding="ascii") as file:
            file.write("\n")
        *answer, memory = self.waited(process)
        os.remove("process")
        os.remove("begin")
        return Answer(*answer), memory

    def check(self, words, tree):
        """Runs the program over a tree; the answer must be the plain reading's."""
        self.hold(tree)
        expected = Answer(*plain.answer(words, tree))
        got = self.run(words)
        if not agrees(expected, got):
            raise difference(words, tree, expected, got)
        return got


def outcome(group):
    """What a group comes to, a program's path, a function of its groups and a name: how many cases it has and what else is to be said, or the first
    difference. It may leave its files behind, so it has a folder of its own."""
    path, groups, name = group
    with tempfile.TemporaryDirectory() as folder:
        os.chdir(folder)
        try:
            count = dict(groups(Program(path)))[name]()
        except Difference as found:
            return 0, None, str(found)
        finally:
            os.chdir("/")
    return (*count, None) if isinstance(count, tuple) else (count, None, None)


def beside_each_other(groups):
    """What each group comes to, in their order, with as many at a time as there are processors."""
    with ProcessPoolExecutor() as processes:
        yield from processes.map(outcome, groups)


def on_alarm(*_):
    raise TimeoutError


signal.signal(signal.SIGALRM, on_alarm)
