"""Time and peak memory of `room gen` and `room replay` as the input grows.

    python3 bench/growth.py PROGRAM [LINES..]

PROGRAM is one word of the shell. It runs `gen 1 10000`, then replays of LINES lines (10000, 30000 and 100000 unless
said otherwise) in which three clients edit, flush and drain in turn. Time is to grow in proportion: it says seconds for
1,000 lines beside the least input's. Peak memory is to stay within 20 times the input, that of the empty process
counted too (how much is above it stands beside): status 1 where it does not, or where a run fails.
"""
import os
import shlex
import subprocess
import sys
import tempfile
import time

MOST = 20
# the unit of a process's peak memory
UNIT = 1 if sys.platform == "darwin" else 1024


def schedule(count):
    """So many lines: dials first, reports last."""
    lines = [line for c in (1, 2, 3) for line in ("dial %d" % c, "drain 1000")]
    number = 0
    while len(lines) < count - 2:
        c = number % 3 + 1
        lines += ["edit %d set root f%d %d" % (c, number % 100, number), "flush %d" % c, "drain 1000"]
        number += 1
    return ("\n".join(lines[:count - 2] + ["brief 1", "brief server"]) + "\n").encode()


def run(words, text):
    """(status, seconds, peak memory in bytes, report)."""
    with tempfile.TemporaryFile() as source, tempfile.TemporaryFile() as sink:
        source.write(text)
        source.seek(0)
        begin = time.monotonic()
        process = subprocess.Popen(words, stdin=source, stdout=sink)
        _, status, usage = os.wait4(process.pid, 0)
        seconds = time.monotonic() - begin
        process.returncode = os.waitstatus_to_exitcode(status)
        sink.seek(0)
        return process.returncode, seconds, usage.ru_maxrss * UNIT, sink.read()


def main():
    if len(sys.argv) < 2:
        sys.exit(__doc__)
    program = shlex.split(sys.argv[1])
    counts = [int(word) for word in sys.argv[2:]] or [10000, 30000, 100000]
    _, _, least, _ = run(program + ["replay"], b"")
    print("%-18s %31.1f MiB" % ("no lines", least / 2 ** 20))
    status, seconds, memory, report = run(program + ["gen", "1", "10000"], b"")
    print("%-18s %8.2f s %20.1f MiB  status %d  %s" % ("gen 1 10000", seconds, memory / 2 ** 20, status,
                                                      report.decode().splitlines()[-1:]))
    good, first = status == 0, None
    for count in counts:
        text = schedule(count)
        status, seconds, memory, _ = run(program + ["replay"], text)
        rate, times, above = 1000 * seconds / count, memory / len(text), (memory - least) / len(text)
        first = first or rate
        good = good and status == 0 and times <= MOST
        print("%-18s %8.2f s %20.1f MiB  status %d  %.3f s for 1,000 lines (%.2f of the first), memory %.1f times the "
              "input of %d bytes (%.1f above no lines)" % (
                  "replay %d" % count, seconds, memory / 2 ** 20, status, rate, rate / first, times, len(text), above))
    sys.exit(0 if good else 1)


main()
