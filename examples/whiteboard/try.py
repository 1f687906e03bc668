"""The whiteboard in two pages of headless Chromium, before and after the server is killed.

    python3 examples/whiteboard/try.py -- SERVER WORDS..

The words behind `--` start the server; {folder} and {address} in them are filled in. Both pages draw by the mouse and see each
other's shapes and cursors; one undoes. The server is stopped by `kill -9`, one page draws meanwhile, the server starts again over
the same folder, and both draw on. It ends with 0 where both pages hold the same shapes at each of these points, with 1 where
they don't, and with 2 where no Chromium is installed. It needs Python 3.9 and Chromium, and nothing else.
"""
import functools
import http.server
import json
import os
import shutil
import signal
import subprocess
import sys
import tempfile
import threading
import time
import urllib.parse
import urllib.request

HERE = os.path.dirname(os.path.abspath(__file__))
sys.path.insert(0, os.path.join(HERE, "..", "..", "bench"))

from served import Served, words_of  # noqa: E402
from websocket import Peer  # noqa: E402

BROWSERS = ["chromium", "chromium-browser", "google-chrome"]
WAIT = 40.0

# what a page holds: its connection, its shapes in order, how much isn't acknowledged, and whose cursors it knows
STATE = """JSON.stringify((() => {
  const { client, shapes } = whiteboard;
  const list = shapes();
  return {
    status: document.getElementById("status").textContent,
    shapes: list === undefined ? [] : client.shown.children(list).map((id) => [id, client.shown.get(id).data]),
    pending: client.batches.length,
    cursors: [...client.others.values()].filter((other) => other.cursor !== undefined).map((other) => other.name),
  };
})())"""


class Quiet(http.server.SimpleHTTPRequestHandler):
    def log_message(self, *_):
        pass


class Browser:
    """Headless Chromium, with a folder of its own that is removed in the end."""

    def __init__(self, program):
        self.folder = tempfile.mkdtemp(prefix="room-browser-")
        self.process = subprocess.Popen(
            [program, "--headless=new", "--no-sandbox", "--disable-gpu", "--remote-debugging-port=0",
             "--disable-background-timer-throttling", "--disable-renderer-backgrounding",
             "--user-data-dir=" + self.folder, "about:blank"],
            stdout=subprocess.DEVNULL, stderr=subprocess.DEVNULL)
        port = os.path.join(self.folder, "DevToolsActivePort")
        until("the browser listens", lambda: os.path.exists(port) and "\n" in open(port).read())
        self.address = "127.0.0.1:" + open(port).read().split("\n")[0]

    def page(self, url):
        asked = urllib.request.Request("http://%s/json/new?%s" % (self.address, urllib.parse.quote(url, safe="")),
                                       method="PUT")
        with urllib.request.urlopen(asked) as answer:
            target = json.load(answer)["webSocketDebuggerUrl"]
        return Page(Peer(self.address, WAIT, "/" + target.split("/", 3)[3]))

    def end(self):
        self.process.send_signal(signal.SIGKILL)
        self.process.wait()
        shutil.rmtree(self.folder, ignore_errors=True)


class Page:
    def __init__(self, peer):
        self.peer, self.number = peer, 0

    def call(self, method, **params):
        self.number += 1
        self.peer.send(json.dumps({"id": self.number, "method": method, "params": params}))
        while (answer := json.loads(self.peer.receive(WAIT))).get("id") != self.number:
            pass
        return answer["result"]

    def value(self, text):
        return self.call("Runtime.evaluate", expression=text, returnByValue=True)["result"].get("value")

    def state(self):
        text = self.value(STATE)
        return {"status": "", "shapes": [], "pending": 0, "cursors": []} if text is None else json.loads(text)

    def mouse(self, kind, x, y, button="none"):
        self.call("Input.dispatchMouseEvent", type=kind, x=x, y=y, button=button, clickCount=int(button != "none"))

    def click(self, name):
        x, y = self.value("(() => { const b = document.getElementById('%s').getBoundingClientRect();"
                          " return [b.x + b.width / 2, b.y + b.height / 2]; })()" % name)
        self.mouse("mousePressed", x, y, "left")
        self.mouse("mouseReleased", x, y, "left")


def until(what, holds):
    end = time.monotonic() + WAIT
    while not holds():
        if time.monotonic() > end:
            raise TimeoutError(what)
        time.sleep(0.1)
    print("yes: " + what, flush=True)


def agree(pages, count):
    """Whether all pages are connected, show so many shapes, the same ones, and nothing is unacknowledged."""
    states = [page.state() for page in pages]
    return all(state["shapes"] == states[0]["shapes"] and len(state["shapes"]) == count and state["pending"] == 0
               and state["status"] == "connected" for state in states)


def draw(server, ann, ben):
    pages = [ann, ben]
    until("both pages are connected", lambda: agree(pages, 0))
    ann.click("rect")
    until("a rectangle of one is seen by both", lambda: agree(pages, 1))
    ben.click("ellipse")
    until("an ellipse of the other, too", lambda: agree(pages, 2))
    ann.mouse("mouseMoved", 300, 400)
    ben.mouse("mouseMoved", 500, 300)
    until("each sees the other's cursor",
          lambda: ann.state()["cursors"] == ["Ben"] and ben.state()["cursors"] == ["Ann"])
    ann.click("undo")
    until("what one undoes is gone from both", lambda: agree(pages, 1))
    server.stop(signal.SIGKILL)
    until("both notice that the server was killed",
          lambda: all(page.state()["status"] == "connecting" for page in pages))
    ben.click("rect")
    until("one draws meanwhile, and sees it", lambda: len(ben.state()["shapes"]) == 2 and ben.state()["pending"] > 0)
    server.start()
    until("the server is back, and both hold what was drawn", lambda: agree(pages, 2))
    ann.click("ellipse")
    until("both draw on, and agree", lambda: agree(pages, 3))
    print(json.dumps(ann.state()["shapes"]))


def main():
    _, words = words_of(__doc__)
    program = next((found for found in map(shutil.which, BROWSERS) if found), None)
    if program is None:
        print("no Chromium is installed", file=sys.stderr)
        sys.exit(2)
    files = http.server.ThreadingHTTPServer(("127.0.0.1", 0), functools.partial(Quiet, directory=HERE))
    threading.Thread(target=files.serve_forever, daemon=True).start()
    with Served(words) as server:
        browser = Browser(program)
        try:
            url = "http://127.0.0.1:%d/index.html?server=ws://%s&name=" % (files.server_address[1], server.address)
            draw(server, browser.page(url + "Ann"), browser.page(url + "Ben"))
        except TimeoutError as late:
            print("no: %s" % late)
            sys.exit(1)
        finally:
            browser.end()
            files.shutdown()


main()
