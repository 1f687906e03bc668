"""`kill -9` of `room replay FOLDER` at random moments: the room is then what a first part of the updates makes it.

    python3 bench/kill_replay.py PROGRAM COUNT [UPDATES] [SEED]

PROGRAM is one word of the shell. The schedule joins three clients, then makes UPDATES updates (300 unless said
otherwise), one after the other, with compactions and restarts between. A run on memory tells the room after each
entry. After each of COUNT kills, in a new folder each time, `PROGRAM show FOLDER` must tell one of these, and none that
is older than what the killed run had reported: each report stands behind the echo of its update. It counts how many
kills came before the end, and how many runs had reported something by then.
"""
import os
import random
import re
import shlex
import shutil
import signal
import subprocess
import sys
import tempfile
import time

CLIENTS = (1, 2, 3)
SERVER = re.compile(rb"server n (\d+) nodes \d+ sessions (\d+)\nserver n \d+ (.*)\n")


def turn(rng, number):
    """The lines of an update: at most one entry is committed between two reports."""
    client = rng.choice(CLIENTS)
    edit = rng.choice(["set root f%d %d" % (rng.randrange(20), number), "push 1:1 %d" % number,
                       "insert 1:1 0 {\"$object\":{\"n\":%d}}" % number, "update root {\"a\":%d,\"b\":null}" % number])
    lines = ["edit %d %s" % (client, edit), "flush %d" % client, "drain 1000"]
    if number % 40 == 0:
        lines.append("compact")
    if number % 90 == 0:
        lines += ["stop", "start"] + ["dial %d" % c for c in CLIENTS] + ["drain 1000"]
    return lines


def schedule(updates, rng):
    report = ["brief server", "show server"]
    lines = list(report)
    for client in CLIENTS:
        lines += ["dial %d" % client, "drain 1000"] + report
    lines += ["edit 1 set root l {\"$list\":[]}", "flush 1", "drain 1000"] + report
    for number in range(1, updates):
        lines += turn(rng, number) + report
    return ("\n".join(lines) + "\n").encode()


def states(report):
    """The rooms that a report tells, in order, each as (updates, sessions, view)."""
    return [(int(n), int(sessions), view) for n, sessions, view in SERVER.findall(report)]


def shown(program, folder):
    """The room of a folder."""
    done = subprocess.run(program + ["show", folder], stdin=subprocess.DEVNULL, stdout=subprocess.PIPE)
    match = re.fullmatch(rb"room n (\d+) sessions (\d+) (.*)\n", done.stdout)
    if done.returncode != 0 or match is None:
        raise RuntimeError("show ended with %d: %r" % (done.returncode, done.stdout[:200]))
    return int(match.group(1)), int(match.group(2)), match.group(3)


def killed(program, folder, text, seconds):
    """(whether the kill came before the end, what was reported by then)."""
    out = os.path.join(folder, "..", "report")
    with open(out, "wb") as report, tempfile.TemporaryFile() as source:
        source.write(text)
        source.seek(0)
        process = subprocess.Popen(program + ["replay", folder], stdin=source, stdout=report)
        time.sleep(seconds)
        process.send_signal(signal.SIGKILL)
        status = process.wait()
    with open(out, "rb") as report:
        return status == -signal.SIGKILL, report.read()


def whole(program, text, folder=None):
    """(the seconds, the report) of a run that nobody kills."""
    begin = time.monotonic()
    words = program + ["replay"] + ([] if folder is None else [folder])
    done = subprocess.run(words, input=text, stdout=subprocess.PIPE)
    if done.returncode != 0:
        sys.exit("the schedule ended with %d: %r" % (done.returncode, done.stdout[-200:]))
    return time.monotonic() - begin, done.stdout


class Place:
    """A new folder for the room, removed behind it unless something failed."""

    def __enter__(self):
        self.top = tempfile.mkdtemp(prefix="room-kill-")
        self.folder = os.path.join(self.top, "room")
        os.mkdir(self.folder)
        return self.folder

    def __exit__(self, failed, *_):
        if failed is None:
            shutil.rmtree(self.top)
        else:
            print("kept: %s" % self.top)


def main():
    if not 3 <= len(sys.argv) <= 5:
        sys.exit(__doc__)
    program, count = shlex.split(sys.argv[1]), int(sys.argv[2])
    updates = int(sys.argv[3]) if len(sys.argv) > 3 else 300
    rng = random.Random(int(sys.argv[4]) if len(sys.argv) > 4 else 1)
    text = schedule(updates, rng)
    known = states(whole(program, text)[1])
    place_of = {state: place for place, state in enumerate(known)}
    if known[0] != (0, 0, b"{}") or known[-1][:2] != (updates, len(CLIENTS)) or len(place_of) != updates + 4:
        sys.exit("a run on memory doesn't tell each room once: %d of %d" % (len(place_of), updates + 4))
    with Place() as folder:
        seconds, report = whole(program, text, folder)
        if states(report) != known or shown(program, folder) != known[-1]:
            sys.exit("a run on a folder doesn't tell what a run on memory tells")
    early, reported, ends = 0, 0, []
    for number in range(1, count + 1):
        with Place() as folder:
            before_end, report = killed(program, folder, text, rng.uniform(0, seconds))
            told, state = states(report), shown(program, folder)
            if state not in place_of:
                raise RuntimeError("kill %d: no first part makes %r" % (number, state))
            if told and place_of[state] < place_of[told[-1]]:
                raise RuntimeError("kill %d: reported n %d, there is n %d" % (number, told[-1][0], state[0]))
        early, reported = early + before_end, reported + (before_end and bool(told))
        ends.append(state[0])
    print("%d kills, %d before the end, %d of these after a report; n from %d to %d, %d different; each is allowed" % (
        count, early, reported, min(ends), max(ends), len(set(ends))))


main()
