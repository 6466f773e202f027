"""A client of WebSocket (RFC 6455), as far as browsers speak it to who drives them: texts."""
import base64
import os
import socket
import struct
from urllib.parse import urlsplit

TEXT, CLOSE, PING, PONG = 1, 8, 9, 10
END = b"\r\n\r\n"


class WebSocket:
    """A connection, from which messages are read and to which they are written, as texts."""

    def __init__(self, address, timeout):
        parts = urlsplit(address)
        self.socket = socket.create_connection((parts.hostname, parts.port), timeout)
        self.read = b""
        key = base64.b64encode(os.urandom(16)).decode()
        self.socket.sendall(
            f"GET {parts.path or '/'} HTTP/1.1\r\nHost: {parts.hostname}:{parts.port}\r\n"
            "Upgrade: websocket\r\nConnection: Upgrade\r\n"
            f"Sec-WebSocket-Key: {key}\r\nSec-WebSocket-Version: 13\r\n\r\n".encode())
        head = self.until(END)
        if not head.startswith(b"HTTP/1.1 101 "):
            raise ConnectionError(head.decode(errors="replace").splitlines()[0])

    def more(self):
        found = self.socket.recv(1 << 16)
        if not found:
            raise ConnectionError("the browser ended the connection")
        self.read += found

    def until(self, end):
        while end not in self.read:
            self.more()
        found, self.read = self.read.split(end, 1)
        return found

    def take(self, size):
        while len(self.read) < size:
            self.more()
        found, self.read = self.read[:size], self.read[size:]
        return found

    def frame(self):
        """The next frame: whether it ends its message, its kind, and its bytes."""
        first, size = self.take(2)
        if size == 126:
            (size,) = struct.unpack(">H", self.take(2))
        elif size == 127:
            (size,) = struct.unpack(">Q", self.take(8))
        return first & 0x80, first & 0x0F, self.take(size)

    def receive(self):
        """The next message."""
        message = b""
        while True:
            last, kind, data = self.frame()
            if kind == PING:
                self.write(PONG, data)
            elif kind == CLOSE:
                raise ConnectionError("the browser closed the connection")
            elif kind != PONG:
                message += data
                if last:
                    return message.decode()

    def write(self, kind, data):
        """Writes a message as one frame; what a client writes is masked."""
        size = len(data)
        if size < 126:
            head = struct.pack(">BB", 0x80 | kind, 0x80 | size)
        elif size < 1 << 16:
            head = struct.pack(">BBH", 0x80 | kind, 0x80 | 126, size)
        else:
            head = struct.pack(">BBQ", 0x80 | kind, 0x80 | 127, size)
        mask = os.urandom(4)
        key = int.from_bytes((mask * (size // 4 + 1))[:size], "big")
        masked = (int.from_bytes(data, "big") ^ key).to_bytes(size, "big")
        self.socket.sendall(head + mask + masked)

    def send(self, text):
        self.write(TEXT, text.encode())

    def close(self):
        self.socket.close()
