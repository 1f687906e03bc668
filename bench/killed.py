"""`kill -9` of a server under load: each update that came back to its sender is there after the next start.

    python3 bench/killed.py [KILLS] [CLIENTS] -- room serve {folder} room {address} 1000000000000

KILLS are 20 and CLIENTS 4 unless said otherwise. Each client sets fields of its own, one update a field, and resumes
its session after each start.
"""
import random
import signal
import sys
import threading
import time

from served import Served, words_of
from sessions import Session
from websocket import Lost


class Writer(threading.Thread):
    """Sends updates one after the other, and keeps what came back."""

    def __init__(self, session, known):
        super().__init__()
        self.session, self.known = session, known

    def run(self):
        try:
            while True:
                name = "f%d_%d" % (self.session.actor, self.session.clock + 1)
                self.session.echo(self.session.put(name, self.session.clock))
                self.known.append(name)
        except (Lost, OSError, TimeoutError):
            pass


def main():
    own, words = words_of(__doc__)
    kills = int(own[0]) if own else 20
    count = int(own[1]) if len(own) > 1 else 4
    known, resumes = [], [None] * count
    with Served(words) as served:
        for turn in range(kills):
            sessions = [Session(served.address, resume=resume) for resume in resumes]
            resumes = [(session.actor, session.key) for session in sessions]
            missing = set(known) - set(sessions[0].items[0][1]["data"])
            if missing:
                sys.exit("lost after kill %d: %s" % (turn, sorted(missing)[:5]))
            writers = [Writer(session, known) for session in sessions]
            for writer in writers:
                writer.start()
            time.sleep(random.uniform(0.02, 0.3))
            served.stop(signal.SIGKILL)
            for writer in writers:
                writer.join()
            served.start()
        last = Session(served.address)
        missing = set(known) - set(last.items[0][1]["data"])
        if missing:
            sys.exit("lost: %s" % sorted(missing)[:5])
        print("%d kills, %d updates came back and all are there; the room has %d" % (kills, len(known), last.number))


main()
