"""What Firefox tells of itself by WebDriver BiDi: events, over a web socket."""
import base64
import json
import os
import socket
import struct
import threading
from urllib.parse import urlsplit

# The last part of a message, with the mark of a text.
TEXT = 0x81
PING, CLOSE = 9, 8


class Listener:
    """A connection over which events come, each of which is handed to `heard`."""

    def __init__(self, address, heard):
        self.heard = heard
        self.answered = threading.Event()
        place = urlsplit(address)
        self.stream = socket.create_connection((place.hostname, place.port), 120)
        key = base64.b64encode(os.urandom(16)).decode()
        self.stream.sendall(("GET %s HTTP/1.1\r\nHost: %s\r\nUpgrade: websocket\r\nConnection: Upgrade\r\nSec-WebSocket-Key: %s\r\n"
                             "Sec-WebSocket-Version: 13\r\n\r\n" % (place.path, place.netloc, key)).encode())
        self.file = self.stream.makefile("rb")
        while self.file.readline().strip():
            pass
        self.stream.settimeout(None)

    def begin(self, *events):
        """Asks for these events, and hears them from then on."""
        threading.Thread(target=self.listen, daemon=True).start()
        self.put(TEXT, json.dumps({"id": 1, "method": "session.subscribe", "params": {"events": events}}).encode())
        if not self.answered.wait(60):
            raise RuntimeError("firefox does not tell its events")

    def put(self, kind, data):
        mask = os.urandom(4)
        size = struct.pack(">B", 0x80 | len(data)) if len(data) < 126 else struct.pack(">BH", 0x80 | 126, len(data))
        self.stream.sendall(bytes([kind]) + size + mask + bytes(byte ^ mask[at % 4] for at, byte in enumerate(data)))

    def listen(self):
        whole = b""
        while True:
            head = self.file.read(2)
            if len(head) < 2:
                return
            size = head[1] & 127
            if size > 125:
                size, = struct.unpack(">H" if size == 126 else ">Q", self.file.read(2 if size == 126 else 8))
            data = self.file.read(size)
            if head[0] & 15 == CLOSE:
                return
            if head[0] & 15 == PING:
                self.put(0x8a, data)
                continue
            whole += data
            if head[0] & 0x80:
                self.hear(json.loads(whole))
                whole = b""

    def hear(self, message):
        if message.get("type") == "event":
            self.heard(message)
        elif message.get("id") == 1:
            if message.get("type") == "error":
                raise RuntimeError(message["message"])
            self.answered.set()
