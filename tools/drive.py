"""Drives Chromium and Firefox without a window, by WebDriver BiDi."""
import json
import os
import re
import shutil
import signal
import subprocess
import tempfile
import time
import urllib.request
from contextlib import contextmanager
from pathlib import Path

from web_socket import WebSocket

# a command or a page that takes longer, in seconds, has failed
PATIENCE = 60
# by the name of each browser: what is started, and of which of Debian's packages that is
NEEDED = {
    "Chromium": {"chromium": "chromium", "chromedriver": "chromium-driver"},
    "Firefox": {"firefox-esr": "firefox-esr"},
}
# for how many milliseconds a button is down: the editor needs a moment in Firefox
CLICK = 50
KEYS = {"Enter": "\ue007", "Tab": "\ue004", "Home": "\ue011", "End": "\ue010", "Left": "\ue012",
        "Up": "\ue013", "Right": "\ue014", "Down": "\ue015", "Delete": "\ue017",
        "Escape": "\ue00c", "Control": "\ue009", "Shift": "\ue008"}


class Refused(Exception):
    """A command that the browser did not do, or a script that threw."""


def missing(browsers):
    """The packages that these browsers need and that are not there."""
    return sorted({package for name in browsers for program, package in NEEDED[name].items()
                   if not shutil.which(program)})


def wait_for(pattern, process, log):
    """What the process writes that the pattern finds."""
    started = time.monotonic()
    while time.monotonic() - started < PATIENCE and process.poll() is None:
        found = re.search(pattern, log.read_text(errors="replace"))
        if found:
            return found[1]
        time.sleep(0.05)
    raise Refused(f"{process.args[0]} does not start:\n{log.read_text(errors='replace')}")


@contextmanager
def process(words, folder, pattern):
    """Runs a program while the context lasts, as a group of processes that ends with it."""
    log = Path(folder) / "log"
    with log.open("wb") as written:
        started = subprocess.Popen(words, stdout=written, stderr=subprocess.STDOUT,
                                   stdin=subprocess.DEVNULL, preexec_fn=os.setpgrp)
    try:
        yield wait_for(pattern, started, log)
    finally:
        os.killpg(started.pid, signal.SIGTERM)
        try:
            started.wait(10)
        except subprocess.TimeoutExpired:
            os.killpg(started.pid, signal.SIGKILL)
            started.wait()


def posted(address, value):
    """What a driver returns."""
    asked = urllib.request.Request(address, json.dumps(value).encode(),
                                   {"Content-Type": "application/json"})
    with urllib.request.urlopen(asked, timeout=PATIENCE) as found:
        return json.load(found)["value"]


@contextmanager
def chromium():
    """The address of a new session of Chromium."""
    options = ["--headless=new", "--no-sandbox", "--disable-gpu", "--hide-scrollbars"]
    asked = {"browserName": "chrome", "webSocketUrl": True,
             "goog:chromeOptions": {"binary": shutil.which("chromium"), "args": options}}
    with tempfile.TemporaryDirectory() as folder:
        words = ["chromedriver", "--port=0"]
        with process(words, folder, r"started successfully on port (\d+)") as port:
            at = f"http://127.0.0.1:{port}/session"
            made = posted(at, {"capabilities": {"alwaysMatch": asked}})
            try:
                yield made["capabilities"]["webSocketUrl"], False
            finally:
                ended = urllib.request.Request(f"{at}/{made['sessionId']}", method="DELETE")
                urllib.request.urlopen(ended, timeout=PATIENCE).close()


@contextmanager
def firefox():
    """The address of Firefox, of which a session is asked."""
    with tempfile.TemporaryDirectory() as folder:
        words = ["firefox-esr", "--headless", "--no-remote", "--profile", folder,
                 "--remote-debugging-port", "0"]
        with process(words, folder, r"WebDriver BiDi listening on (ws://\S+)") as address:
            yield f"{address}/session", True


class Page:
    """A page of a browser: commands and what they return."""

    def __init__(self, name, address, asks):
        self.name, self.events, self.number = name, [], 0
        self.socket = WebSocket(address, PATIENCE)
        if asks:
            self.command("session.new", capabilities={})
        self.command("session.subscribe", events=["network.beforeRequestSent", "log.entryAdded"])
        # Firefox gives its first window no focus
        self.context = self.command("browsingContext.create", type="window")["context"]

    def command(self, method, **params):
        self.number += 1
        self.socket.send(json.dumps({"id": self.number, "method": method, "params": params}))
        while True:
            message = json.loads(self.socket.receive())
            if message.get("id") == self.number:
                break
            self.events.append(message)
        if message["type"] == "error":
            raise Refused(f"{method}: {message['message']}")
        return message["result"]

    def open(self, address):
        self.command("browsingContext.navigate", context=self.context, url=address, wait="complete")

    def resize(self, width, height, ratio=1):
        self.command("browsingContext.setViewport", context=self.context,
                     viewport={"width": width, "height": height}, devicePixelRatio=ratio)

    def run(self, script, *args):
        """What a function of JavaScript returns, as JSON; it may return a promise."""
        values = ", ".join(json.dumps(it) for it in args)
        asked = f"Promise.resolve(({script})({values})).then((it) => JSON.stringify(it ?? null))"
        found = self.command("script.evaluate", expression=asked, awaitPromise=True,
                             target={"context": self.context}, userActivation=True)
        if found["type"] == "exception":
            raise Refused(found["exceptionDetails"]["text"])
        return json.loads(found["result"]["value"])

    def until(self, script, *args):
        """Waits until a function of JavaScript returns something true, and returns it."""
        started = time.monotonic()
        while True:
            found = self.run(script, *args)
            if found:
                return found
            if time.monotonic() - started > PATIENCE:
                raise Refused(f"is never true: {script}")
            time.sleep(0.03)

    def actions(self, **source):
        self.command("input.performActions", context=self.context, actions=[source])

    def keys(self, *names):
        """Presses keys by their names, all of them down together."""
        values = [KEYS.get(name, name) for name in names]
        down = [{"type": "keyDown", "value": it} for it in values]
        up = [{"type": "keyUp", "value": it} for it in reversed(values)]
        self.actions(type="key", id="keys", actions=down + up)

    def type(self, text):
        values = [KEYS["Enter"] if it == "\n" else it for it in text]
        pressed = [{"type": kind, "value": it} for it in values for kind in ("keyDown", "keyUp")]
        self.actions(type="key", id="keys", actions=pressed)

    def click(self, selector):
        """Clicks into an element, near its corner if it is large: it may be wider than the page."""
        place = self.run("""(selector) => {
            const found = document.querySelector(selector);
            const isSeen = ({ top, bottom }) => top >= 0 && bottom <= innerHeight;
            if (!isSeen(found.getBoundingClientRect())) found.scrollIntoView({ block: 'nearest' });
            const box = found.getBoundingClientRect();
            const inside = (size) => Math.min(size / 2, 24);
            return [box.x + inside(box.width), box.y + inside(box.height)].map(Math.round);
        }""", selector)
        x, y = place
        down, up = ({"type": f"pointer{it}", "button": 0} for it in ("Down", "Up"))
        self.actions(type="pointer", id="mouse", actions=[
            {"type": "pointerMove", "x": x, "y": y}, down, {"type": "pause", "duration": CLICK},
            up])

    def picture(self):
        """The page as a PNG, in base64."""
        return self.command("browsingContext.captureScreenshot", context=self.context)["data"]

    def requests(self):
        """The addresses that were asked for since the start."""
        self.command("session.status")
        return [it["params"]["request"]["url"] for it in self.events
                if it.get("method") == "network.beforeRequestSent"]

    def errors(self):
        """What was written to the console as an error."""
        self.command("session.status")
        return [it["params"]["text"] for it in self.events
                if it.get("method") == "log.entryAdded" and it["params"]["level"] == "error"]


@contextmanager
def page(name):
    """A page in the browser of that name."""
    start = {"Chromium": chromium, "Firefox": firefox}[name]
    with start() as (address, asks):
        opened = Page(name, address, asks)
        try:
            yield opened
        finally:
            opened.socket.close()
