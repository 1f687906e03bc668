"""What a room costs at least: a loop that appends each update to a file, syncs it, and relays it. No tree, no checks.

    python3 bench/relay.py FOLDER HOST:PORT
"""
import json
import os
import sys

from hub import Hub


class Relay:
    def __init__(self, folder):
        os.makedirs(folder, exist_ok=True)
        self.file = open(os.path.join(folder, "log"), "ab", buffering=0)
        self.conns, self.number = [], 0

    def opened(self, conn, _key):
        self.conns.append(conn)

    def gone(self, conn):
        self.conns.remove(conn)
        return []

    def frame(self, conn, text):
        outs = []
        for message in json.loads(text):
            if message["type"] == 1:
                answer = {"actor": conn, "key": "%016x" % conn, "type": 104, "users": {}}
                outs.append(("send", conn, json.dumps(answer)))
            elif message["type"] == 200:
                state = {"items": [["root", {"data": {}, "type": 0}]], "last": 0, "seq": self.number, "type": 200}
                outs.append(("send", conn, json.dumps(state)))
            elif message["type"] == 201:
                self.number += 1
                self.file.write(text.encode())
                os.fdatasync(self.file.fileno())
                update = json.dumps({"ops": message["ops"], "seq": self.number, "type": 201})
                outs += [("send", other, update) for other in self.conns]
        return outs


Hub(Relay(sys.argv[1]), sys.argv[2]).run()
