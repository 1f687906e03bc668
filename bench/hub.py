"""A server's side of WebSocket connections: one loop, which hands events to a server and sends what it answers."""
import os
import selectors
import socket
import struct

from websocket import accept_key, closing, cut_frame, frame


class Conn:
    def __init__(self, stream, number):
        self.stream, self.number = stream, number
        self.data, self.is_open = bytearray(), False


class Hub:
    """The server has `opened(conn, key)`, and `frame(conn, text)` and `gone(conn)`, which answer what goes out:
    ("send", conn, text) and ("close", conn, code, text)."""

    def __init__(self, server, address):
        host, port = address.rsplit(":", 1)
        self.server = server
        self.listener = socket.create_server((host, int(port)), backlog=256)
        self.listener.setblocking(False)
        self.selector = selectors.DefaultSelector()
        self.selector.register(self.listener, selectors.EVENT_READ, None)
        self.conns, self.last = {}, 0

    def run(self):
        while True:
            for key, _ in self.selector.select():
                if key.data is None:
                    self.accept()
                elif key.data.number in self.conns:
                    self.read(key.data)

    def accept(self):
        stream, _ = self.listener.accept()
        stream.setsockopt(socket.IPPROTO_TCP, socket.TCP_NODELAY, 1)
        stream.settimeout(5)
        self.last += 1
        conn = Conn(stream, self.last)
        self.conns[conn.number] = conn
        self.selector.register(stream, selectors.EVENT_READ, conn)

    def drop(self, conn):
        if self.conns.pop(conn.number, None) is not None:
            self.selector.unregister(conn.stream)
            conn.stream.close()

    def gone(self, conn):
        was_open = conn.is_open
        self.drop(conn)
        if was_open:
            self.send_all(self.server.gone(conn.number))

    def read(self, conn):
        try:
            part = conn.stream.recv(65536)
        except OSError:
            part = b""
        if not part:
            return self.gone(conn)
        conn.data += part
        if not conn.is_open and not self.greet(conn):
            return
        while conn.number in self.conns:
            found = cut_frame(conn.data)
            if found is None:
                return
            masked = conn.data[1] & 128
            opcode, payload, used = found
            del conn.data[:used]
            self.take(conn, opcode if masked else -1, payload)

    def greet(self, conn):
        head, end, rest = bytes(conn.data).partition(b"\r\n\r\n")
        if not end:
            if len(head) > 8192:
                self.drop(conn)
            return False
        lines = [line.split(":", 1) for line in head.decode("latin-1").split("\r\n")[1:] if ":" in line]
        key = {name.strip().lower(): value.strip() for name, value in lines}.get("sec-websocket-key")
        if key is None:
            self.drop(conn)
            return False
        conn.stream.sendall(("HTTP/1.1 101 Switching Protocols\r\nUpgrade: websocket\r\nConnection: Upgrade\r\n"
                             "Sec-WebSocket-Accept: %s\r\n\r\n" % accept_key(key)).encode())
        conn.data, conn.is_open = bytearray(rest), True
        self.server.opened(conn.number, int.from_bytes(os.urandom(8), "big"))
        return True

    def take(self, conn, opcode, payload):
        if opcode == 1:
            try:
                text = payload.decode("utf-8")
            except UnicodeDecodeError:
                return self.gone(conn)
            self.send_all(self.server.frame(conn.number, text))
        elif opcode == 9:
            self.put(conn, frame(10, payload, False))
        elif opcode != 10:
            code = 1003 if opcode == 2 else closing(payload)[0] or 1000
            self.put(conn, frame(8, struct.pack(">H", code), False))
            self.gone(conn)

    def put(self, conn, data):
        try:
            conn.stream.sendall(data)
            return True
        except OSError:
            return False

    def send_all(self, outs):
        for out in outs:
            conn = self.conns.get(out[1])
            if conn is None:
                continue
            if out[0] == "send":
                if not self.put(conn, frame(1, out[2].encode(), False)):
                    self.gone(conn)
            else:
                self.put(conn, frame(8, struct.pack(">H", out[2]) + out[3].encode(), False))
                self.drop(conn)
