"""A client of the language server: it frames messages, and keeps what the server sent."""
import json
import os
import select
import subprocess
import time
from urllib.parse import quote, unquote

SECONDS = 60


def frame(message):
    """A message with its length before it."""
    body = message if isinstance(message, bytes) else json.dumps(message, ensure_ascii=False).encode()
    return b"Content-Length: %d\r\n\r\n%s" % (len(body), body)


def messages_in(read):
    """The messages in bytes, and the bytes of a last frame that is not whole."""
    messages = []
    while b"\r\n\r\n" in read:
        head, rest = read.split(b"\r\n\r\n", 1)
        name, length = head.split(b": ")
        assert name == b"Content-Length", head
        if len(rest) < int(length):
            break
        messages.append(json.loads(rest[:int(length)]))
        read = rest[int(length):]
    return messages, read


def uri_of(path):
    return "file://" + quote(str(path))


def path_of(uri):
    assert uri.startswith("file:///"), uri
    return unquote(uri[len("file://"):])


class Client:
    """A session with a server. Each request waits for its reply, so the messages before it have been read by then."""

    def __init__(self, program, encodings=None):
        self.server = subprocess.Popen([program, "lsp"], stdin=subprocess.PIPE, stdout=subprocess.PIPE, stderr=subprocess.PIPE)
        self.read = b""
        self.number = 0
        self.replies = []
        # what is shown of each file, by its path
        self.shown = {}
        self.publications = 0
        general = {"general": {"positionEncodings": encodings}} if encodings else {}
        self.welcome = self.request("initialize", {"processId": None, "rootUri": None, "capabilities": general})
        self.notify("initialized", {})

    def send(self, data, pieces=1):
        """Sends bytes, in several pieces if these are asked for."""
        size = max(1, -(-len(data) // pieces))
        for start in range(0, len(data), size):
            self.server.stdin.write(data[start:start + size])
            self.server.stdin.flush()

    def notify(self, method, params):
        self.send(frame({"jsonrpc": "2.0", "method": method, "params": params}))

    def request(self, method, params=None):
        """Sends a request, and returns its reply, of which there has to be one."""
        self.number += 1
        message = {"jsonrpc": "2.0", "id": self.number, "method": method}
        if params is not None:
            message["params"] = params
        self.send(frame(message))
        return self.reply()

    def take(self, message):
        if "method" in message:
            assert message["method"] == "textDocument/publishDiagnostics", message
            self.publications += 1
            self.shown[path_of(message["params"]["uri"])] = message["params"]["diagnostics"]
        else:
            self.replies.append(message)

    def reply(self):
        """Waits for the next reply."""
        before = len(self.replies)
        until = time.time() + SECONDS
        while len(self.replies) == before:
            ready = select.select([self.server.stdout], [], [], max(0, until - time.time()))[0]
            assert ready, "no reply within %d seconds" % SECONDS
            more = os.read(self.server.stdout.fileno(), 1 << 16)
            assert more, "the server ended: %r" % self.server.stderr.read()
            messages, self.read = messages_in(self.read + more)
            for message in messages:
                self.take(message)
        assert len(self.replies) == before + 1, self.replies
        return self.replies[-1]

    def settle(self):
        """Has all messages so far read. The method of the request is not known, and its reply says so with its id."""
        reply = self.request("pamcheck/unknown", {})
        assert reply["id"] == self.number and reply["error"]["code"] == -32601, reply

    def end(self, shutdown=True):
        """Ends the session, and returns the exit status, standard error and the messages that were left."""
        if shutdown:
            reply = self.request("shutdown")
            assert reply == {"jsonrpc": "2.0", "id": self.number, "result": None}, reply
        self.notify("exit", None)
        return self.finish()

    def finish(self):
        out, err = self.server.communicate(timeout=SECONDS)
        messages, rest = messages_in(self.read + out)
        assert not rest, rest
        return self.server.returncode, err, messages

    def open(self, path, version, text):
        self.notify("textDocument/didOpen",
                    {"textDocument": {"uri": uri_of(path), "languageId": "pam", "version": version, "text": text}})

    def change(self, path, version, *texts):
        self.notify("textDocument/didChange",
                    {"textDocument": {"uri": uri_of(path), "version": version}, "contentChanges": [{"text": text} for text in texts]})

    def close(self, path):
        self.notify("textDocument/didClose", {"textDocument": {"uri": uri_of(path)}})

    def save(self, path):
        self.notify("textDocument/didSave", {"textDocument": {"uri": uri_of(path)}})
