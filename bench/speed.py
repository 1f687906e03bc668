"""Updates a second, the echo's latency, and the server's processor time for each update, beside a plain loop that
appends, syncs and relays (`relay.py`).

    python3 bench/speed.py [SECONDS] -- room serve {folder} room {address} 1000000000000

Each measure takes SECONDS, 3 unless said otherwise: clients that each wait for their echo (1, 10 and 50 of them), and
one that has 16 updates under way.
"""
import os
import select
import sys
import time

from served import Served, words_of
from sessions import Session


def put_some(session, count, sent):
    for _ in range(count):
        sent[(session.actor, session.put("x", session.clock))] = time.monotonic()


def measure(served, clients, ahead, seconds):
    """(updates, seconds, sorted latencies, processor seconds) of clients that keep so many updates under way."""
    sessions = [Session(served.address) for _ in range(clients)]
    by_stream = {session.peer.socket: session for session in sessions}
    cpu, begin, sent, latencies = served.cpu_seconds(), time.monotonic(), {}, []
    for session in sessions:
        put_some(session, ahead, sent)
    while time.monotonic() < begin + seconds:
        ready, _, _ = select.select(list(by_stream), [], [], 1)
        for stream in ready:
            session = by_stream[stream]
            session.peer.more()
            for message in session.ready(201):
                for op in message["ops"]:
                    actor, clock = map(int, op["opId"].split(":"))
                    if actor == session.actor:
                        latencies.append(time.monotonic() - sent.pop((actor, clock)))
                        put_some(session, 1, sent)
    end, used = time.monotonic(), served.cpu_seconds()
    for session in sessions:
        session.close()
    return len(latencies), end - begin, sorted(latencies), None if cpu is None else used - cpu


def report(name, served, seconds):
    for clients, ahead in ((1, 1), (10, 1), (50, 1), (1, 16)):
        count, took, latencies, cpu = measure(served, clients, ahead, seconds)
        if count == 0:
            sys.exit("%s: no echo" % name)
        print("%-6s %2d clients, %2d ahead: %7.0f updates/s, echo %6.2f ms (99%%: %6.2f), cpu %s ms an update" % (
            name, clients, ahead, count / took, 1000 * latencies[count // 2], 1000 * latencies[count * 99 // 100],
            "?" if cpu is None else "%.3f" % (1000 * cpu / count)))


def main():
    own, words = words_of(__doc__)
    seconds = float(own[0]) if own else 3
    relay = os.path.join(os.path.dirname(os.path.abspath(__file__)), "relay.py")
    for name, command in (("room", words), ("relay", [sys.executable, relay, "{folder}", "{address}"])):
        with Served(command) as served:
            report(name, served, seconds)


main()
