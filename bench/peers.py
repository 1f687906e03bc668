"""Connections of several kinds at one server, each of which sees every update of all of them.

    python3 bench/peers.py [COUNT] -- room serve {folder} room {address} 1000000000000

COUNT is 50 unless said otherwise. Besides this folder's own connections, `websockets` of Python and the WebSocket of
Node take part, where they are there.
"""
import asyncio
import json
import os
import shutil
import subprocess
import sys
import threading

from served import Served, words_of
from sessions import Session

UPDATES = 10


def by_websockets(address, result):
    """A connection by `websockets`, which sends one update and sees it again."""
    import websockets

    async def run():
        async with websockets.connect("ws://%s/" % address) as socket:
            await socket.send(json.dumps([{"type": 1, "room": "room"}]))
            actor = json.loads(await socket.recv())["actor"]
            await socket.send(json.dumps([{"type": 200}]))
            op = {"type": 3, "id": "root", "opId": "%d:1" % actor, "data": {"websockets": actor}}
            await socket.send(json.dumps([{"type": 201, "ops": [op]}]))
            while True:
                message = json.loads(await socket.recv())
                if message["type"] == 201 and message["ops"][0]["opId"] == op["opId"]:
                    return
    asyncio.run(asyncio.wait_for(run(), 20))
    result.append("websockets")


def by_node(address):
    """The same by Node, or why it takes no part."""
    node = shutil.which("node")
    if node is None:
        return "no Node"
    script = os.path.join(os.path.dirname(os.path.abspath(__file__)), "peer.mjs")
    for flags in ([], ["--experimental-websocket"]):
        run = subprocess.run([node, *flags, script, "ws://%s/" % address], capture_output=True, text=True, timeout=60)
        if run.returncode == 0:
            return "Node: " + run.stdout.strip()
        if run.returncode != 77 and flags:
            sys.exit("Node: " + run.stderr)
    return "Node has no WebSocket"


def main():
    own, words = words_of(__doc__)
    count = int(own[0]) if own else 50
    with Served(words) as served:
        sessions = [Session(served.address) for _ in range(count)]
        for turn in range(UPDATES):
            for session in sessions:
                session.put("from%d" % session.actor, turn)
        expected = count * UPDATES
        seen = []
        for session in sessions:
            seen.append([op["opId"] for _ in range(expected) for op in session.next_update()])
        if any(other != seen[0] for other in seen) or len(set(seen[0])) != expected:
            sys.exit("the connections saw different updates")
        print("%d connections saw the same %d updates" % (count, expected))
        for session in sessions:
            session.close()
        print(by_node(served.address))
        try:
            import websockets  # noqa: F401
        except ImportError:
            print("no websockets in Python")
            return
        result = []
        thread = threading.Thread(target=by_websockets, args=(served.address, result))
        thread.start()
        thread.join(30)
        if not result:
            sys.exit("websockets saw no echo")
        print("websockets: its update came back")


main()
