"""WebSocket connections for the scripts, over plain sockets: frames, a client's side, and the server's handshake."""
import base64
import hashlib
import os
import socket
import struct
import time

GUID = "258EAFA5-E914-47DA-95CA-C5AB0DC85B11"


class Lost(Exception):
    """The connection ended: by a close with a code and a text, or without one (None)."""

    def __init__(self, code=None, text=""):
        super().__init__("%s %s" % (code, text))
        self.code, self.text = code, text


def accept_key(key):
    return base64.b64encode(hashlib.sha1((key + GUID).encode()).digest()).decode()


def frame(opcode, payload, masked):
    """One whole frame."""
    size = len(payload)
    bit = 128 if masked else 0
    head = bytes([128 | opcode])
    if size < 126:
        head += bytes([bit | size])
    elif size < 65536:
        head += bytes([bit | 126]) + struct.pack(">H", size)
    else:
        head += bytes([bit | 127]) + struct.pack(">Q", size)
    if not masked:
        return head + payload
    mask = os.urandom(4)
    keys = mask * (size // 4 + 1)
    number = int.from_bytes(payload, "big") ^ int.from_bytes(keys[:size], "big")
    return head + mask + number.to_bytes(size, "big")


def cut_frame(data):
    """(opcode, payload, bytes used) of a first whole frame, or None."""
    if len(data) < 2:
        return None
    size, at = data[1] & 127, 2
    if size == 126:
        size, at = (struct.unpack(">H", data[2:4])[0], 4) if len(data) >= 4 else (size, 1 << 60)
    elif size == 127:
        size, at = (struct.unpack(">Q", data[2:10])[0], 10) if len(data) >= 10 else (size, 1 << 60)
    masked = data[1] & 128 != 0
    start = at + (4 if masked else 0)
    if len(data) < start + size:
        return None
    payload = bytes(data[start:start + size])
    if masked and size:
        keys = bytes(data[at:at + 4]) * (size // 4 + 1)
        number = int.from_bytes(payload, "big") ^ int.from_bytes(keys[:size], "big")
        payload = number.to_bytes(size, "big")
    return data[0] & 15, payload, start + size


def closing(payload):
    """The code and the text of a close frame."""
    if len(payload) < 2:
        return None, ""
    return struct.unpack(">H", payload[:2])[0], payload[2:].decode("utf-8", "replace")


class Peer:
    """A client's connection."""

    def __init__(self, address, wait=10.0, path="/"):
        host, port = address.rsplit(":", 1)
        self.socket = socket.create_connection((host, int(port)), timeout=wait)
        self.socket.setsockopt(socket.IPPROTO_TCP, socket.TCP_NODELAY, 1)
        key = base64.b64encode(os.urandom(16)).decode()
        self.socket.sendall(("GET %s HTTP/1.1\r\nHost: %s\r\nUpgrade: websocket\r\nConnection: Upgrade\r\n"
                             "Sec-WebSocket-Key: %s\r\nSec-WebSocket-Version: 13\r\n\r\n"
                             % (path, address, key)).encode())
        self.data = bytearray()
        while b"\r\n\r\n" not in self.data:
            self.more()
        head, _, rest = bytes(self.data).partition(b"\r\n\r\n")
        if not head.startswith(b"HTTP/1.1 101") or accept_key(key).encode() not in head:
            raise Lost(None, "no handshake")
        self.data = bytearray(rest)

    def more(self):
        """Reads what is there; Lost at the end."""
        try:
            part = self.socket.recv(65536)
        except ConnectionError:
            part = b""
        if not part:
            raise Lost()
        self.data += part

    def send(self, text):
        try:
            self.socket.sendall(frame(1, text.encode(), True))
        except (ConnectionError, BrokenPipeError):
            raise Lost()

    def _next(self):
        """The next text among the bytes that were read, or None where no whole frame is there."""
        while True:
            found = cut_frame(self.data)
            if found is None:
                return None
            opcode, payload, used = found
            del self.data[:used]
            if opcode == 1:
                return payload.decode()
            if opcode == 8:
                raise Lost(*closing(payload))
            if opcode == 9:
                self.socket.sendall(frame(10, payload, True))

    def ready(self):
        """The texts among the bytes that were read."""
        texts = []
        while (text := self._next()) is not None:
            texts.append(text)
        return texts

    def receive(self, wait=10.0):
        """The next text; Lost at the connection's end, TimeoutError where nothing comes."""
        end = time.monotonic() + wait
        while (text := self._next()) is None:
            left = end - time.monotonic()
            if left <= 0:
                raise TimeoutError("no frame in %s s" % wait)
            self.socket.settimeout(left)
            self.more()
        return text

    def close(self):
        self.socket.close()
