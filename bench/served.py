"""A server that a script starts and stops: the words behind `--`, with {folder} and {address} in them."""
import os
import shutil
import signal
import socket
import subprocess
import sys
import tempfile
import time


def free_address():
    with socket.create_server(("127.0.0.1", 0)) as probe:
        return "127.0.0.1:%d" % probe.getsockname()[1]


class Served:
    """A server over a folder of its own, which is removed in the end."""

    def __init__(self, words):
        self.words = words
        self.folder = tempfile.mkdtemp(prefix="room-bench-")
        self.address = free_address()
        self.process = None

    def __enter__(self):
        self.start()
        return self

    def __exit__(self, *_):
        self.stop(signal.SIGKILL)
        shutil.rmtree(self.folder, ignore_errors=True)

    def start(self):
        """Starts it, and waits until it listens."""
        filled = [word.format(folder=os.path.join(self.folder, "room"), address=self.address) for word in self.words]
        self.process = subprocess.Popen(filled)
        host, port = self.address.rsplit(":", 1)
        for _ in range(500):
            if self.process.poll() is not None:
                sys.exit("the server ended with %d" % self.process.returncode)
            try:
                socket.create_connection((host, int(port)), timeout=1).close()
                return
            except OSError:
                time.sleep(0.02)
        sys.exit("the server doesn't listen")

    def stop(self, how=signal.SIGTERM):
        if self.process is not None:
            self.process.send_signal(how)
            self.process.wait()
            self.process = None

    def cpu_seconds(self):
        """The processor time of the server so far, or None where the system doesn't tell."""
        try:
            with open("/proc/%d/stat" % self.process.pid) as f:
                words = f.read().rsplit(")", 1)[1].split()
        except OSError:
            return None
        return (int(words[11]) + int(words[12])) / os.sysconf("SC_CLK_TCK")


def words_of(usage):
    """(the script's own words, the server's words behind `--`)."""
    if "--" not in sys.argv[1:]:
        sys.exit(usage)
    at = sys.argv.index("--")
    if at + 1 == len(sys.argv):
        sys.exit(usage)
    return sys.argv[1:at], sys.argv[at + 1:]
