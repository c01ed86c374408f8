"""Files that change while they are read. Each answer has to be that of the files as they were at some moment: a file is read
once, from its begin, so what is put in its place with another name is read whole or not at all. One that is gone after the
program found it in its folder is a file that cannot be read."""
import os
import random
import threading

from hostile.running import Answer, agrees, difference
from model import plain
from model.faults import Fault
from model.sources import NOT_FOUND, Outside

OTHER = b"auth required pam_deny.so\n"
OLD = {"login": b"auth required pam_unix.so\n" * 40 + b"auth requird a.so\n", "common": OTHER, "other": OTHER}
NEW = b"# a comment of another length\n" * 900 + b"auth include common\n"
RUNS = 40
FOLDER = "r/etc/pam.d"
STACK = ["login", "auth", "--dir", FOLDER]
ASKED = [["check", "--dir", FOLDER], ["check", "login", "--root", "r"], ["outcomes", *STACK], ["graph", *STACK],
         ["compare", FOLDER, "e"], ["compare", "e", FOLDER, "login"]]
GONE = Fault("V1", b"login", told=NOT_FOUND)
# A file keeps its state for a part of the time that a run takes.
MOST_SECONDS = 0.004


def replaced(name, data):
    """A change of a file: another one takes its name."""
    with open("new", "wb") as file:
        file.write(data)
    os.replace("new", name)


def removed(name, data):
    """A change of a folder: the file is gone, or is there."""
    if data is None:
        os.remove(name)
    else:
        replaced(name, data)


def linked(name, data):
    """A change of a link: it leads to another file."""
    os.symlink("../first" if data == OLD["login"] else "../second", "new")
    os.replace("new", name)


def cut(name, data):
    """A change in place: comments at the end, which say nothing, come and go."""
    with open(name, "r+b") as file:
        file.truncate(len(OLD["login"]))
        file.seek(0, os.SEEK_END)
        file.write(data[len(OLD["login"]):])


# How a file changes, and the texts that it has in turn, `None` for none.
CHANGES = [(replaced, (OLD["login"], NEW)), (removed, (OLD["login"], None)), (linked, (OLD["login"], NEW)),
           (cut, (OLD["login"], OLD["login"] + b"#" * 200000))]


class Changing:
    """While it is entered, a file changes again and again; it is left as it was first."""

    def __init__(self, change, name, texts):
        self.change, self.name, self.texts, self.done = change, name, texts, threading.Event()
        self.waits = random.Random(name)

    def work(self):
        while not self.done.is_set():
            for text in reversed(self.texts):
                self.change(self.name, text)
                self.done.wait(self.waits.uniform(0, MOST_SECONDS))

    def __enter__(self):
        self.thread = threading.Thread(target=self.work)
        self.thread.start()

    def __exit__(self, *_):
        self.done.set()
        self.thread.join()


def tree_of(change, data):
    """The files of a moment."""
    if change is linked:
        data = Outside(data)
    folder = {name: text for name, text in {**OLD, "login": data}.items() if text is not None}
    return {"r": {"etc": {"pam.d": folder}}, "e": OLD}


def run_words(program, change, texts, words):
    """How many runs of these words there were, while the file changes."""
    allowed = [Answer(*plain.answer(words, tree_of(change, text))) for text in texts]
    if None in texts:
        allowed.append(Answer(b"", plain.fault_line(GONE, words), GONE.status()))
    with Changing(change, FOLDER + "/login", texts):
        answers = [program.run(words) for _ in range(RUNS)]
    for got in answers:
        if not any(agrees(expected, got) for expected in allowed):
            raise difference(words, tree_of(change, texts[0]), allowed[0], got)
    return RUNS


def run(program):
    """How many runs there were."""
    runs = 0
    for change, texts in CHANGES:
        program.hold({})
        tree = tree_of(replaced, OLD["login"])
        tree["r"]["etc"].update(first=OLD["login"], second=NEW)
        program.hold(tree)
        change(FOLDER + "/login", texts[0])
        runs += sum(run_words(program, change, texts, words) for words in ASKED)
    program.hold({})
    return runs
