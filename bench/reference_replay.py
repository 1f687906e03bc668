"""Replays many schedules in one process by another implementation in Python, whose folder is the first argument.

    python3 bench/reference_replay.py IMPLEMENTATION [LEVEL]

For each schedule its input is a line with the number of bytes, then the bytes; its answer is a line with the status and
the number of bytes of the report, then the report. The implementation has a module `reference` with `run`, which takes
the words, a stream, a function for each line of the report, and functions that make the disk and the keeper; a module
`files` with `MemDisk`; and a module `level`, whose LEVEL is set to LEVEL if that is there.
"""
import io
import sys
import traceback


def main():
    if not 2 <= len(sys.argv) <= 3:
        sys.exit(__doc__)
    sys.path.insert(0, sys.argv[1])
    import level
    from files import MemDisk
    from reference import run
    if len(sys.argv) > 2:
        level.LEVEL = int(sys.argv[2])
    source, sink = sys.stdin.buffer, sys.stdout.buffer
    for head in iter(source.readline, b""):
        lines = []
        try:
            status = run(["replay"], io.BytesIO(source.read(int(head))), lines.append, lambda _: MemDisk(), None)
        except Exception:
            traceback.print_exc()
            status = 70
        report = "".join(line + "\n" for line in lines).encode("utf-8")
        sink.write(b"%d %d\n" % (status, len(report)) + report)
        sink.flush()


main()
