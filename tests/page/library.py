"""The library of the page, run by node, and which runs of the program it can repeat."""
import base64
import json
import os
import subprocess

HERE = os.path.dirname(os.path.realpath(__file__))
SOURCES = (b"--dir", b"--conf", b"--root")


def base64_of(data):
    return base64.b64encode(data).decode()


class Library:
    """A library that answers one request after another."""

    def __init__(self, wasm):
        self.node = subprocess.Popen(["node", os.path.join(HERE, "answers.js"), wasm], stdin=subprocess.PIPE, stdout=subprocess.PIPE)

    def answer(self, words, files):
        """The status and the bytes of both streams, or why there is no answer."""
        request = {"words": [base64_of(word) for word in words], "files": [[base64_of(path), base64_of(data)] for path, data in files]}
        self.node.stdin.write(json.dumps(request).encode() + b"\n")
        self.node.stdin.flush()
        said = json.loads(self.node.stdout.readline())
        if "fault" in said:
            return said["fault"]
        return said["status"], base64.b64decode(said["out"]), base64.b64decode(said["err"])

    def end(self):
        self.node.stdin.close()
        self.node.wait()


def program_answer(program, words, folder):
    """The same of the program, run in a folder."""
    done = subprocess.run([b"pamcheck", *words], executable=program, cwd=folder, env={}, stdin=subprocess.DEVNULL, stdout=subprocess.PIPE,
                          stderr=subprocess.PIPE, timeout=60)
    return done.returncode, done.stdout, done.stderr


def values_of(words):
    """The words that may name files: those that are no options, and the values of options after `=`."""
    for word in words:
        if word.startswith(b"-"):
            word = word.partition(b"=")[2] if b"=" in word else b""
        yield from {word, word.partition(b"=")[2]} - {b""}


def is_plain(path):
    """Whether the library can find a file by this path as it is: no part of it is empty, `.` or `..`, but for an empty last one."""
    return not any(part in (b"", b".", b"..") for part in path.rstrip(b"/").split(b"/"))


def reason_against(words):
    """Why the library cannot repeat a run with these words, or nothing: it has files, and no system."""
    command = words[0] if words else b""
    named = [value for value in values_of(words) if b"/" in value]
    if command in (b"check", b"policy") and not any(word.partition(b"=")[0] in SOURCES for word in words):
        return "the running system is read"
    if any(not is_plain(value) for value in named) or any(value in (b".", b"..") for value in values_of(words)):
        return "a path is not written as a file in memory is named"
    return None
