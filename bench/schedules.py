"""Random schedules of `room replay`: the same seed makes the same schedule.

    python3 bench/schedules.py SEED [LINES]

prints one. `schedule(seed, lines)` answers its text. While it writes lines it follows, roughly, what they do: which
clients are loaded and under which actor, which nodes there are and how long the lists are. So most edits act on
something; some name what was deleted, or what never was. It guesses and simulates nothing, so a refused hello or a
stopped server can lead it astray for a while.
"""
import json
import random
import sys

CLIENTS = 6
TEXTS = ["", "a", "red", "layer", "é", "漢字", "\U0001f600", "\"", "\\", "\n", "\t", "\u0001", "\u007f", "\u2028", "/"]
NAMES = ["a", "b", "c", "d", "title", "x", "y", "é", "$object", "~", "", "a b"]
KEYS = ["a", "b", "c", "d", "title", "x", "y", "~", "!"]
NUMBERS = [0, 1, -1, 7, 10, 1000, 2 ** 31, 2 ** 32, 2 ** 53 - 1, 1 - 2 ** 53]
HOWS = ["old", "new", "torn"]
BROKEN = [
    "", " ", "{", "[", "[]x", "nul", "[1,]", "{\"a\":1,}", "\"\\ud800\"", "[1.5]", "[9007199254740992]", "[-0]",
    "[1e3]",
    "{}", "3", "null", "\"ping\"", "[3]", "[{}]", "[{\"type\":\"1\"}]", "[{\"type\":2}]", "[{\"type\":1}]", "ping ",
    "[{\"type\":1,\"room\":\"other\"}]", "[{\"type\":1,\"room\":\"room\",\"resume\":{}}]",
    "[{\"type\":1,\"room\":\"room\",\"resume\":{\"actor\":0,\"key\":\"0000000000000001\"}}]",
    "[{\"type\":1,\"room\":\"room\"},{\"type\":200}]", "[{\"type\":100}]", "[{\"type\":100,\"data\":[]}]",
    "[{\"type\":100,\"data\":{},\"targetActor\":-2}]", "[{\"type\":103}]", "[{\"type\":201}]",
    "[{\"type\":201,\"ops\":{}}]", "[{\"type\":201,\"ops\":[{\"type\":9}]}]", "[{\"type\":201,\"ops\":[{}]}]",
    "[{\"type\":201,\"ops\":[{\"type\":5,\"id\":\"01:1\",\"opId\":\"1:1\"}]}]",
    "[" * 61 + "]" * 61, "[" * 200 + "]" * 200,
]
BAD_LINES = [
    "foo", "dial", "dial 0", "dial 65", "dial 01", "dial 1 ", " dial 1", "dial  1", "edit 1 set root a", "show",
    "edit 1 set root a 1.5", "edit 1 set root a 9007199254740992", "edit 1 set 01:1 a 1", "edit 1 update root 3",
    "edit 1 move root 1", "edit 1 set root é 1", "fuse 0 old", "fuse 1 now", "limit 1", "limit 9007199254740992 1",
    "limit 1 4294967296", "raw 1", "drain -1", "drain 18446744073709551616", "presence 1 []", "show servers",
    "edit 1 push root [", "edit 1 put root x 1", "take 1 1", "stop now",
]


def text_of(value):
    return json.dumps(value, ensure_ascii=False, separators=(",", ":"))


class Node:
    """What is thought to be there: a list has its children in `items`, an object and a map theirs in `members`."""

    def __init__(self, name, kind, parent):
        self.name, self.kind, self.parent = name, kind, parent
        self.members, self.items, self.fields = {}, [], set()

    def children(self):
        return list(self.members.values()) + self.items


class Guess:
    """The tree that all clients would show if every edit reached every one at once."""

    def __init__(self):
        self.root = Node("root", "object", None)

    def nodes(self):
        found, todo = [], [self.root]
        while todo:
            node = todo.pop()
            found.append(node)
            todo += node.children()
        return found


class Peer:
    """A client or a link, as it is thought to stand."""

    def __init__(self):
        self.actor = self.connection = self.waiting = None
        self.loaded = self.live = self.batch = self.fetched = False
        self.node, self.op = 1, 1
        self.done, self.undone = [], []
        self.gone = []
        # nodes that it made: not yet sent, and under way
        self.unsent, self.sent = set(), set()


class Writer:
    def __init__(self, seed, lines):
        self.rng = random.Random("schedule %d" % seed)
        self.lines, self.wanted = [], lines
        self.guess = Guess()
        self.clients = {c: Peer() for c in range(1, CLIENTS + 1)}
        self.links = []
        self.connections = self.sessions = 0
        self.running = True

    def put(self, line):
        self.lines.append(line)

    def chance(self, part):
        return self.rng.random() < part

    # ---- values

    def plain(self, depth=2):
        """A JSON of the profile."""
        pick = self.rng.randrange(10 if depth else 7)
        if pick < 3:
            return self.rng.choice(NUMBERS) if self.chance(0.4) else self.rng.randrange(100)
        if pick < 5:
            return self.rng.choice(TEXTS)
        if pick < 7:
            return self.rng.choice([None, True, False])
        if pick == 7:
            return [self.plain(depth - 1) for _ in range(self.rng.randrange(4))]
        if pick == 8 and self.chance(0.1):
            value = 1
            for _ in range(self.rng.choice([48, 49, 50, 51, 55])):
                value = [value]
            return value
        return self.record(depth - 1)

    def record(self, depth=1):
        return {self.rng.choice(NAMES): self.plain(depth) for _ in range(self.rng.randrange(4))}

    def value(self, depth=3):
        """The JSON of what becomes a node or a field: half of the time live."""
        if depth == 0 or self.chance(0.45):
            return self.plain()
        count = self.rng.randrange(4)
        kind = self.rng.choice(["$object", "$map", "$list"])
        if kind == "$list":
            return {kind: [self.value(depth - 1) for _ in range(count)]}
        return {kind: {self.rng.choice(NAMES): self.value(depth - 1) for _ in range(count)}}

    # ---- the guess

    def made(self, peer, parent, value, is_field):
        """The node that a value becomes, or None where it is a field; its numbers are taken."""
        kind, inner = "register", None
        if isinstance(value, dict) and len(value) == 1:
            (name, inside), = value.items()
            if name in ("$object", "$map") and isinstance(inside, dict) or name == "$list" and isinstance(inside, list):
                kind, inner = name[1:], inside
        if kind == "register" and is_field:
            return None
        node = Node("%d:%d" % (peer.actor or 1, peer.node), kind, parent)
        peer.node += 1
        peer.unsent.add(node.name)
        if kind == "list":
            node.items = [self.made(peer, node, item, False) for item in inner]
        elif inner is not None:
            for name in sorted(inner):
                child = self.made(peer, node, inner[name], kind == "object")
                if child is None:
                    node.fields.add(name)
                else:
                    node.members[name] = child
        return node

    def changed(self, peer, undo, redo):
        """Does a change of the guess, and keeps how it is taken back."""
        redo()
        if peer.batch and peer.done:
            peer.done[-1].append((undo, redo))
        else:
            peer.done.append([(undo, redo)])
        peer.undone = []

    def put_member(self, peer, parent, name, node):
        before = parent.members.get(name)
        field = name in parent.fields

        def redo():
            parent.members.pop(name, None)
            parent.fields.discard(name)
            if node is None:
                parent.fields.add(name)
            else:
                parent.members[name] = node

        def undo():
            parent.members.pop(name, None)
            parent.fields.discard(name)
            if before is not None:
                parent.members[name] = before
            if field:
                parent.fields.add(name)

        self.changed(peer, undo, redo)
        self.forget(peer, before)

    def forget(self, peer, node):
        if node is not None:
            peer.gone.append(node)
            del peer.gone[:-5]

    def put_items(self, peer, parent, items):
        before = list(parent.items)
        for node in before:
            if node not in items:
                self.forget(peer, node)
        self.changed(peer, lambda: setattr(parent, "items", list(before)),
                     lambda: setattr(parent, "items", list(items)))

    def drop_member(self, peer, parent, name):
        before, field = parent.members.get(name), name in parent.fields

        def redo():
            parent.members.pop(name, None)
            parent.fields.discard(name)

        def undo():
            if before is not None:
                parent.members[name] = before
            if field:
                parent.fields.add(name)

        if before is not None or field:
            self.changed(peer, undo, redo)
            self.forget(peer, before)

    # ---- choices

    def client(self):
        """Mostly one that is loaded; a client's number."""
        loaded = [c for c, peer in self.clients.items() if peer.loaded and peer.live]
        if loaded and not self.chance(0.04):
            return self.rng.choice(loaded)
        return self.rng.randint(1, CLIENTS)

    def connection(self):
        """Mostly a recent one."""
        if self.connections and not self.chance(0.05):
            return max(1, self.connections - self.rng.randrange(CLIENTS))
        return self.rng.choice([0, 1, self.connections + 1, 2 ** 64 - 1])

    def reached(self, peer):
        """The nodes that a client is thought to show."""
        hidden = set()
        for other in self.clients.values():
            if other is not peer:
                hidden |= other.unsent | other.sent
        return [node for node in self.guess.nodes() if node.name not in hidden]

    def flush(self, c):
        self.put("flush %d" % c)
        peer = self.clients[c]
        if peer.live:
            peer.sent |= peer.unsent
            peer.unsent = set()

    def node(self, peer, kinds):
        """Mostly one of these kinds that is there."""
        if self.chance(0.04):
            return Node(self.rng.choice(["1:1", "2:1", "1:999", "9:9", "root", "4294967295:9007199254740991"]),
                        "list", None)
        if peer.gone and self.chance(0.05):
            return self.rng.choice(peer.gone)
        nodes = self.reached(peer)
        fitting = [node for node in nodes if node.kind in kinds]
        return self.rng.choice(fitting if fitting and not self.chance(0.03) else nodes)

    def key(self, node):
        there = [name for name in list(node.members) + sorted(node.fields)
                 if name and all("!" <= x <= "~" for x in name)]
        return self.rng.choice(there) if there and self.chance(0.6) else self.rng.choice(KEYS)

    def index(self, count):
        """Mostly one below count."""
        if count > 0 and not self.chance(0.04):
            return self.rng.randrange(count)
        return self.rng.choice([count, count + 1, 2 ** 64 - 1])

    # ---- edits

    def edit(self, c):
        peer = self.clients[c]
        acts = [(self.set, 5), (self.update, 4), (self.delete, 2), (self.push, 5), (self.insert, 4), (self.replace, 2),
                (self.move, 4), (self.take, 2), (self.empty, 0.4)]
        if not self.chance(0.05):
            kinds = {node.kind for node in self.reached(peer)}
            acts = acts[:3] if "list" not in kinds else acts
        act = self.rng.choices([act for act, _ in acts], [weight for _, weight in acts])[0]
        self.put("edit %d %s" % (c, act(peer)))

    def set(self, peer):
        node, value = self.node(peer, ("object", "map")), self.value()
        key = self.key(node)
        if peer.loaded and node.kind in ("object", "map"):
            self.put_member(peer, node, key, self.made(peer, node, value, node.kind == "object"))
        return "set %s %s %s" % (node.name, key, text_of(value))

    def update(self, peer):
        node, fields = self.node(peer, ("object",)), self.record()
        for name in fields:
            if peer.loaded and node.kind == "object":
                self.put_member(peer, node, name, None)
        return "update %s %s" % (node.name, text_of(fields))

    def delete(self, peer):
        node = self.node(peer, ("object", "map"))
        key = self.key(node)
        if peer.loaded:
            self.drop_member(peer, node, key)
        return "delete %s %s" % (node.name, key)

    def grown(self, peer, node, at, value, drop=0):
        if peer.loaded and node.kind == "list" and at <= len(node.items) - drop:
            items = list(node.items)
            items[at:at + drop] = [self.made(peer, node, value, False)]
            self.put_items(peer, node, items)

    def push(self, peer):
        node, value = self.node(peer, ("list",)), self.value(2)
        self.grown(peer, node, len(node.items), value)
        return "push %s %s" % (node.name, text_of(value))

    def insert(self, peer):
        node, value = self.node(peer, ("list",)), self.value(2)
        at = self.index(len(node.items) + 1)
        self.grown(peer, node, at, value)
        return "insert %s %d %s" % (node.name, at, text_of(value))

    def replace(self, peer):
        node, value = self.node(peer, ("list",)), self.value(2)
        at = self.index(len(node.items))
        self.grown(peer, node, at, value, drop=1)
        return "put %s %d %s" % (node.name, at, text_of(value))

    def move(self, peer):
        node = self.node(peer, ("list",))
        count = len(node.items)
        start, end = self.index(count), self.index(count)
        if peer.loaded and start < count and end < count:
            items = list(node.items)
            items.insert(end, items.pop(start))
            self.put_items(peer, node, items)
        return "move %s %d %d" % (node.name, start, end)

    def take(self, peer):
        node = self.node(peer, ("list",))
        at = self.index(len(node.items))
        if peer.loaded and at < len(node.items):
            self.put_items(peer, node, node.items[:at] + node.items[at + 1:])
        return "take %s %d" % (node.name, at)

    def empty(self, peer):
        node = self.node(peer, ("list",))
        if peer.loaded and node.items:
            self.put_items(peer, node, [])
        return "empty %s" % node.name

    def back(self, c, redo):
        peer = self.clients[c]
        self.put("%s %d" % ("redo" if redo else "undo", c))
        source, target = (peer.undone, peer.done) if redo else (peer.done, peer.undone)
        if source and not peer.batch and peer.loaded:
            changes = source.pop()
            target.append(changes)
            for undone, redone in (changes if redo else reversed(changes)):
                (redone if redo else undone)()

    def batch(self, c):
        peer = self.clients[c]
        self.put("begin %d" % c)
        peer.batch = True
        for _ in range(self.rng.randrange(5)):
            if self.chance(0.8):
                self.edit(c)
            else:
                self.put("presence%s %d %s" % (self.rng.choice(["", "+"]), c, text_of(self.record())))
            if self.chance(0.1):
                self.exchange()
        if self.chance(0.93):
            self.put("end %d" % c)
            peer.batch = False

    # ---- connections

    def dial(self, c):
        peer = self.clients[c]
        self.put("dial %d" % c)
        self.connections += 1
        peer.connection, peer.live = self.connections, False
        peer.waiting = self.connections if self.running else None

    def joined(self, peer):
        """The server took its hello."""
        if peer.actor is None:
            self.sessions += 1
            peer.actor = self.sessions
        peer.waiting, peer.live = None, True

    def drain(self, count=1000):
        self.put("drain %d" % count)
        waiting = [peer for peer in list(self.clients.values()) + self.links if peer.waiting is not None]
        for peer in sorted(waiting, key=lambda peer: peer.waiting):
            self.joined(peer)
            peer.loaded = peer.loaded or count > 20
        if count > 20:
            for peer in self.clients.values():
                peer.sent = set()

    def up(self):
        k = self.connection()
        self.put("up %d" % k)
        for peer in list(self.clients.values()) + self.links:
            if peer.waiting == k:
                self.joined(peer)

    def exchange(self):
        """Some frames go up or down."""
        pick = self.rng.randrange(10)
        if pick < 3:
            self.flush(self.client())
        elif pick < 5:
            self.drain(self.rng.choice([1, 2, 3, 5]))
        elif pick < 7:
            self.up()
        else:
            self.put("down %d" % self.connection())

    def round(self):
        """All clients send, all frames arrive."""
        for c in self.clients:
            if self.chance(0.8):
                self.flush(c)
        self.drain()
        for c, peer in self.clients.items():
            if peer.actor is not None and not peer.live and self.running and self.chance(0.5):
                self.dial(c)

    def lose(self):
        c = self.client()
        peer = self.clients[c]
        if self.chance(0.6):
            self.put("cut %d" % c)
            if self.chance(0.6) and peer.connection is not None:
                self.put("gone %d" % peer.connection)
            peer.live = False
        else:
            self.put("gone %d" % self.connection())
        if self.chance(0.8):
            self.dial(c)
            if self.chance(0.6):
                self.drain()

    def end_server(self):
        self.running = False
        for peer in list(self.clients.values()) + self.links:
            peer.live, peer.waiting = False, None

    def restart(self):
        if self.chance(0.9):
            self.put("start")
            self.running = True
        for c, peer in self.clients.items():
            if peer.actor is not None and self.chance(0.85):
                self.dial(c)
        if self.chance(0.8):
            self.drain()

    def stop(self):
        self.put("stop")
        self.end_server()
        if self.chance(0.2):
            self.put("fuse %d %s" % (self.rng.randint(1, 4), self.rng.choice(HOWS)))
            self.put("start")
        for _ in range(self.rng.randrange(3)):
            self.edit(self.client())
        self.restart()

    def fuse(self):
        self.put("fuse %d %s" % (self.rng.randint(1, 12), self.rng.choice(HOWS)))
        for _ in range(self.rng.randrange(1, 4)):
            if self.chance(0.2):
                self.put("compact")
            else:
                c = self.client()
                self.edit(c)
                self.flush(c)
                self.drain()
        if self.chance(0.7):
            self.put("stop")
            self.end_server()
            self.restart()

    def limit(self):
        pick = self.rng.randrange(3)
        updates, sessions = [(self.rng.randrange(60), 1000), (10 ** 6, self.rng.randrange(8)), (0, 0)][pick]
        self.put("limit %d %d" % (updates, sessions))
        if self.chance(0.8):
            self.exchange()
            self.round()
            self.put("limit %d %d" % (10 ** 12, 10 ** 6))

    # ---- links

    def link(self):
        self.put("link")
        self.connections += 1
        peer = Peer()
        peer.connection = self.connections
        self.links.append(peer)
        if self.chance(0.85):
            self.hello(peer)

    def raw(self, peer, text):
        self.put("raw %d %s" % (peer.connection, text))

    def hello(self, peer):
        message = {"type": 1, "room": "room"}
        if self.chance(0.15):
            message["resume"] = {"actor": self.rng.randint(1, max(1, self.sessions)),
                                 "key": "%016x" % self.rng.randint(1, self.connections)}
        elif self.running and peer.actor is None:
            peer.waiting = peer.connection
        if self.chance(0.2):
            message["name"] = self.rng.choice(["Ann", "", "é", "x" * 64, "x" * 65])
        if self.chance(0.1):
            message["pass"] = "k1"
        self.raw(peer, text_of([message]))
        if self.chance(0.6):
            self.drain()
            self.raw(peer, '[{"type":200}]')

    def operation(self, peer):
        """An operation in the fields of the wire, with the next clock of its sender, mostly."""
        nodes = self.guess.nodes()
        target, parent = self.rng.choice(nodes), self.rng.choice(nodes)
        code = self.rng.choice([1, 2, 3, 4, 4, 5, 6, 7, 8, 8])
        actor = peer.actor or 1
        op = {"type": code, "id": target.name, "opId": "%d:%d" % (actor, peer.op)}
        peer.op += 1
        if code in (2, 4, 7, 8):
            op["id"] = "%d:%d" % (actor, peer.node)
            peer.node += 1
            op["parentId"] = parent.name
        if code in (1, 2, 4, 7, 8):
            position = self.rng.choice(["!", "\"", "#", "~", "!!", " !", "5", "a ", "", "\u00e9"])
            in_list = code == 1 or parent.kind == "list"
            op["parentKey"] = position if in_list or self.chance(0.1) else self.key(parent)
        if code in (3, 4):
            op["data"] = self.record()
        if code == 8:
            op["data"] = self.plain()
        if code == 6:
            op["key"] = self.key(target)
        if code in (2, 4, 7, 8) and self.chance(0.3):
            op["intent"] = "set"
            op["deletedId"] = self.rng.choice(parent.items or nodes).name
        return op

    def send(self, peer):
        """A frame of a link."""
        pick = self.rng.randrange(12)
        if pick < 5:
            messages = [{"type": 201, "ops": [self.operation(peer) for _ in range(self.rng.choice([0, 1, 1, 1, 2, 4]))]}
                        for _ in range(self.rng.choice([1, 1, 1, 2]))]
            if self.chance(0.08) and messages[0]["ops"]:
                late = "%d:%d" % (peer.actor or 1, peer.op + 3)
                messages[0]["ops"][0]["opId"] = self.rng.choice(["1:1", "9:9", late])
            self.raw(peer, text_of(messages))
        elif pick < 7:
            message = {"type": 100, "data": self.record()}
            if self.chance(0.5):
                message["targetActor"] = self.rng.choice([-1, 0, 1, 2, 3, 99])
            self.raw(peer, text_of([message]))
        elif pick == 7:
            self.raw(peer, text_of([{"type": 103, "event": self.plain()}, {"type": 200}]))
        elif pick == 8:
            self.raw(peer, '[{"type":200}]')
        elif pick == 9:
            self.raw(peer, self.rng.choice(["ping", "[]"]))
        elif pick == 10:
            self.hello(peer)
        else:
            self.raw(peer, self.rng.choice(BROKEN))

    def link_turn(self):
        if not self.links or self.chance(0.25):
            self.link()
        for _ in range(self.rng.randrange(1, 4)):
            self.send(self.rng.choice(self.links[-3:]))
        if self.chance(0.7):
            self.drain()
        if self.chance(0.03):
            self.put("raw %d %s" % (self.connection(), self.rng.choice(BROKEN)))

    # ---- reports

    def tell(self):
        c = self.client()
        self.put(self.rng.choice(["show %d" % c, "show %d" % c, "brief %d" % c, "show server", "brief server",
                                  "others %d" % c, "history %d" % c, "notices %d" % c]))

    def tell_all(self):
        for c, peer in self.clients.items():
            if peer.connection is not None:
                self.lines += ["show %d" % c, "others %d" % c, "history %d" % c, "notices %d" % c]
        self.lines += ["show server", "brief server"]

    # ---- whole

    def begin(self):
        for c in range(1, self.rng.choice([1, 2, 2, 3, 3, 4]) + 1):
            self.dial(c)
            if self.chance(0.8):
                self.drain()
        self.drain()
        for name, value in (("m", {"$map": {"a": {"$object": {"x": 0}}, "b": 1}}),
                            ("l", {"$list": ["p", {"$list": []}, "q"]}), ("o", {"$object": {"x": {"$map": {}}}})):
            if self.chance(0.7):
                peer = self.clients[1]
                self.put("edit 1 set root %s %s" % (name, text_of(value)))
                self.put_member(peer, self.guess.root, name, self.made(peer, self.guess.root, value, True))
        if self.chance(0.9):
            self.put("flush 1")
            self.drain()

    def turn(self, acts, weights):
        self.rng.choices(acts, weights)[0]()

    def whole(self):
        c, say = self.client, self.put
        table = [
            (lambda: self.edit(c()), 30), (lambda: self.batch(c()), 4),
            (lambda: self.back(c(), False), 5), (lambda: self.back(c(), True), 3),
            (lambda: say("%s %d" % (self.rng.choice(["pause", "resume", "resume", "clear"]), c())), 2),
            (lambda: say("%s %d" % (self.rng.choice(["begin", "end", "end", "end"]), c())), 1),
            (lambda: say("presence%s %d %s" % (self.rng.choice(["", "", "+"]), c(), text_of(self.record()))), 5),
            (lambda: say("event %d %s" % (c(), text_of(self.plain()))), 2),
            (lambda: say("resend %d" % c()), 1), (self.exchange, 16), (self.round, 8), (self.lose, 2), (self.stop, 1),
            (self.fuse, 1), (lambda: say("compact"), 1), (self.limit, 0.3), (self.link_turn, 4),
            (lambda: self.dial(self.rng.randint(1, CLIENTS)), 1), (self.tell, 9),
            (lambda: say(self.rng.choice(["start", "# a comment", ""])), 0.5),
        ]
        acts, weights = [act for act, _ in table], [weight for _, weight in table]
        if self.chance(0.97):
            self.begin()
        while len(self.lines) < self.wanted:
            self.turn(acts, weights)
        self.put("start")
        self.running = True
        for number, peer in self.clients.items():
            if peer.connection is not None:
                if peer.batch:
                    self.put("end %d" % number)
                self.dial(number)
        self.drain(100000)
        self.tell_all()
        if self.chance(0.02):
            self.lines.insert(self.rng.randrange(len(self.lines)), self.rng.choice(BAD_LINES))
        return "\n".join(self.lines) + ("" if self.chance(0.1) else "\n")


def schedule(seed, lines=None):
    """A random schedule of about so many lines, 20 to 200 unless said otherwise."""
    if lines is None:
        lines = random.Random("length %d" % seed).choice([20, 40, 60, 80, 120, 200])
    return Writer(seed, lines).whole()


if __name__ == "__main__":
    if not 2 <= len(sys.argv) <= 3:
        sys.exit(__doc__)
    sys.stdout.buffer.write(schedule(int(sys.argv[1]), int(sys.argv[2]) if len(sys.argv) > 2 else None).encode("utf-8"))
