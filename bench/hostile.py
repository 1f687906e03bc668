"""Hostile bytes before and behind the handshake; a good session beside them is served as before.

    python3 bench/hostile.py [ROUNDS] -- room serve {folder} room {address} 1000000000000

ROUNDS of random bytes are 200 unless said otherwise.
"""
import os
import random
import socket
import sys

from served import Served, words_of
from sessions import Session
from websocket import Lost, Peer, frame

HEAD = (b"GET / HTTP/1.1\r\nHost: a\r\nUpgrade: websocket\r\nConnection: Upgrade\r\n"
        b"Sec-WebSocket-Key: dGhlIHNhbXBsZSBub25jZQ==\r\nSec-WebSocket-Version: 13\r\n\r\n")

# Each is written to a connection that then ends.
BEFORE = [b"", b"\r\n\r\n", b"GET / HTTP/1.1\r\n\r\n", b"\x00" * 100, HEAD[:-2], HEAD.replace(b"13", b"99"),
          HEAD.replace(b"GET", b"POST"), b"GET / HTTP/1.1\r\n" + b"a: b\r\n" * 3000 + b"\r\n", HEAD[4:]]

# Frames behind a handshake: what they are, the bytes, and the close's code where the text is the server's to judge.
BEHIND = [
    ("unmasked", frame(1, b"[]", False), None),
    ("a reserved bit", bytes([0xC1]) + frame(1, b"[]", True)[1:], None),
    ("an unknown kind", frame(3, b"", True), None),
    ("a long ping", frame(9, b"a" * 126, True), None),
    ("no UTF-8", frame(1, b"\xff\xfe", True), None),
    ("a continuation of nothing", bytes([0x80]) + frame(1, b"[]", True)[1:], None),
    ("an endless length", bytes([0x81, 0xFF]) + b"\xff" * 8 + b"abcd", None),
    ("binary", frame(2, b"[]", True), 1003),
    ("no JSON", frame(1, b"[", True), 4400),
    ("nested deeply", frame(1, b"[" * 100000, True), 4400),
    ("a number too large", frame(1, b'[{"type":99999999999999999999}]', True), 4400),
    ("no hello", frame(1, b'[{"type":200}]', True), 4400),
    ("another room", frame(1, b'[{"type":1,"room":"x"}]', True), 4400),
    ("a session of nobody", frame(1, b'[{"type":1,"room":"room","resume":{"actor":9,"key":"0000000000000009"}}]',
                                  True), 4401),
    ("a frame over the limit", frame(1, b"[" + b" " * 1048576 + b"]", True), 4400),
]


def write(address, data):
    host, port = address.rsplit(":", 1)
    with socket.create_connection((host, int(port)), timeout=5) as stream:
        try:
            stream.sendall(data)
        except OSError:
            pass


def tried(address, what, data, code):
    """Sends bytes behind a handshake, and compares the close."""
    peer = Peer(address)
    try:
        peer.socket.sendall(data)
        peer.receive(5)
        sys.exit("%s: an answer" % what)
    except Lost as lost:
        if code is not None and lost.code != code:
            sys.exit("%s: closed with %s %s" % (what, lost.code, lost.text))
    except TimeoutError:
        if code is not None:
            sys.exit("%s: no close" % what)
    except OSError:
        pass
    finally:
        peer.close()


def main():
    own, words = words_of(__doc__)
    rounds = int(own[0]) if own else 200
    with Served(words) as served:
        good = Session(served.address)
        tries = 0

        def still():
            good.echo(good.put("tries", tries))

        for data in BEFORE:
            write(served.address, data)
            tries += 1
            still()
        for what, data, code in BEHIND:
            tried(served.address, what, data, code)
            tries += 1
            still()
        for _ in range(rounds):
            noise = os.urandom(random.randrange(1, 400))
            write(served.address, noise if random.random() < 0.3 else HEAD + noise)
            tries += 1
        still()
        print("%d hostile connections, and the good one was served throughout" % tries)


main()
