"""Sessions of a room over connections: what they need of the protocol, and no tree."""
import json

from websocket import Peer


class Session:
    """A session that has fetched; it keeps the numbers of the updates that it sees."""

    def __init__(self, address, room="room", resume=None):
        self.peer = Peer(address)
        hello = {"type": 1, "room": room}
        if resume is not None:
            hello["resume"] = {"actor": resume[0], "key": resume[1]}
        self.say(hello)
        welcome = self.hear(104)
        self.actor, self.key = welcome["actor"], welcome["key"]
        self.say({"type": 200})
        state = self.hear(200)
        self.items = state["items"]
        while state.get("more"):
            state = self.hear(200)
            self.items += state["items"]
        self.number, self.clock = state["seq"], state["last"]

    def say(self, *messages):
        self.peer.send(json.dumps(messages))

    def hear(self, kind, wait=10.0):
        """The next message of a kind; others are passed over."""
        while True:
            frame = json.loads(self.peer.receive(wait))
            for message in frame if isinstance(frame, list) else [frame]:
                if message["type"] == kind:
                    return message

    def ready(self, kind):
        """The messages of a kind among the whole frames that were read already."""
        found = []
        for text in self.peer.ready():
            frame = json.loads(text)
            found += [m for m in (frame if isinstance(frame, list) else [frame]) if m["type"] == kind]
        return found

    def put(self, name, value):
        """Sends an update of one field of the root, and answers its clock."""
        self.clock += 1
        op = {"type": 3, "id": "root", "opId": "%d:%d" % (self.actor, self.clock), "data": {name: value}}
        self.say({"type": 201, "ops": [op]})
        return self.clock

    def next_update(self, wait=10.0):
        """The operations of the next update, whose number must be the next one."""
        update = self.hear(201, wait)
        self.number += 1
        if update["seq"] != self.number:
            raise AssertionError("update %d in place of %d" % (update["seq"], self.number))
        return update["ops"]

    def echo(self, clock, wait=10.0):
        """Takes updates until its own operation of this clock comes back."""
        own = "%d:%d" % (self.actor, clock)
        while own not in [op["opId"] for op in self.next_update(wait)]:
            pass

    def close(self):
        self.peer.close()
