"""Random schedules through `room replay` and through another implementation: status and bytes are the same.

    python3 bench/random_schedules.py [--many] [--processes N] [--lines N] [--into FOLDER] PROGRAM OTHER COUNT [SEED]

PROGRAM is called as `PROGRAM replay`. OTHER is a command that reads a schedule and writes the report; with --many it is
one that takes many schedules in one process, as `reference_replay.py` does. Both are given as one word of the shell.
The schedules are those of the seeds SEED (1 unless said otherwise), SEED + 1 and so on; N of them, 2 unless said
otherwise, run at the same time. Each that differs goes into FOLDER (`differing` unless said otherwise), with both
reports. The end is a count, and status 1 where one differs.
"""
import argparse
import collections
import os
import queue
import shlex
import subprocess
import sys
import threading

from schedules import schedule

SECONDS = 120


class Plain:
    """One process for each schedule."""

    def __init__(self, words):
        self.words = words

    def run(self, text):
        """(status, report)."""
        try:
            done = subprocess.run(self.words, input=text, stdout=subprocess.PIPE, timeout=SECONDS)
        except subprocess.TimeoutExpired:
            return "no end within %d seconds" % SECONDS, b""
        return done.returncode, done.stdout

    def close(self):
        pass


class Many:
    """One process for all schedules of a thread."""

    def __init__(self, words):
        self.process = subprocess.Popen(words, stdin=subprocess.PIPE, stdout=subprocess.PIPE)

    def run(self, text):
        self.process.stdin.write(b"%d\n" % len(text) + text)
        self.process.stdin.flush()
        head = self.process.stdout.readline().split()
        if len(head) != 2:
            raise RuntimeError("the other implementation ended")
        return int(head[0]), self.process.stdout.read(int(head[1]))

    def close(self):
        self.process.stdin.close()
        self.process.wait()


class Comparison:
    def __init__(self, options):
        self.options = options
        self.lock = threading.Lock()
        self.seeds = queue.SimpleQueue()
        for seed in range(options.seed, options.seed + options.count):
            self.seeds.put(seed)
        self.ran = self.lines = self.differing = 0
        self.kinds, self.failure = collections.Counter(), None

    def work(self):
        program = Plain(shlex.split(self.options.program) + ["replay"])
        other = (Many if self.options.many else Plain)(shlex.split(self.options.other))
        try:
            while self.failure is None:
                self.one(self.seeds.get_nowait(), program, other)
        except queue.Empty:
            pass
        except Exception as failure:
            self.failure = failure
        finally:
            other.close()

    def one(self, seed, program, other):
        text = schedule(seed, self.options.lines).encode("utf-8")
        got, expected = program.run(text), other.run(text)
        with self.lock:
            self.ran += 1
            self.lines += text.count(b"\n")
            self.kinds.update(line.split(b" ", 1)[0].decode() for line in expected[1].splitlines() if line)
            if got != expected:
                self.differing += 1
                self.keep(seed, text, got, expected)

    def keep(self, seed, text, got, expected):
        os.makedirs(self.options.into, exist_ok=True)
        for name, data in (("schedule", text), ("program", got[1]), ("other", expected[1])):
            with open(os.path.join(self.options.into, "%d.%s" % (seed, name)), "wb") as file:
                file.write(data)
        where = first_difference(got[1], expected[1])
        print("seed %d: status %s, expected %s; %s" % (seed, got[0], expected[0], where), flush=True)


def first_difference(got, expected):
    ours, theirs = got.split(b"\n"), expected.split(b"\n")
    for number, (a, b) in enumerate(zip(ours, theirs), 1):
        if a != b:
            return "line %d of the report is %r, expected %r" % (number, a[:200], b[:200])
    return "the report has %d lines, expected %d" % (len(ours) - 1, len(theirs) - 1)


def main():
    parser = argparse.ArgumentParser(usage=__doc__)
    parser.add_argument("--many", action="store_true")
    parser.add_argument("--processes", type=int, default=2)
    parser.add_argument("--lines", type=int)
    parser.add_argument("--into", default="differing")
    parser.add_argument("program")
    parser.add_argument("other")
    parser.add_argument("count", type=int)
    parser.add_argument("seed", type=int, nargs="?", default=1)
    comparison = Comparison(parser.parse_args())
    threads = [threading.Thread(target=comparison.work) for _ in range(comparison.options.processes)]
    for thread in threads:
        thread.start()
    for thread in threads:
        thread.join()
    if comparison.failure is not None:
        sys.exit("stopped after %d schedules: %s" % (comparison.ran, comparison.failure))
    print("reported: " + ", ".join("%s %d" % pair for pair in comparison.kinds.most_common()))
    print("%d schedules of %d lines, %d differ" % (comparison.ran, comparison.lines, comparison.differing))
    sys.exit(1 if comparison.differing else 0)


main()
