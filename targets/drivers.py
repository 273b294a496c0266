"""Drives Chromium, by chromedriver, and Firefox, by its own Marionette: the same few commands of WebDriver for both, without a window.

  with drivers.chromium() as page:
      page.open("http://127.0.0.1:8000/page.html")
      page.type("#grammar", "@gif")
      page.click("#view")
      page.run("return document.title")
"""

import contextlib
import json
import os
import shutil
import socket
import subprocess
import tempfile
import time
import urllib.error
import urllib.request

QUIET = {"stdin": subprocess.DEVNULL, "stdout": subprocess.DEVNULL, "stderr": subprocess.DEVNULL}
ELEMENT = "element-6066-11e4-a52e-4f735466cecf"  # what WebDriver calls the number of an element


def free_port():
    with socket.socket() as probe:
        probe.bind(("127.0.0.1", 0))
        return probe.getsockname()[1]


def retried(what, seconds=60):
    """What comes of a call, once it doesn't fail for want of a connection."""
    for _ in range(seconds * 10):
        with contextlib.suppress(ConnectionError, urllib.error.URLError):
            return what()
        time.sleep(0.1)
    return what()


class Chromedriver:
    """WebDriver over HTTP."""

    def __init__(self, port, room):
        self.address = f"http://127.0.0.1:{port}"
        words = ["--headless=new", "--no-sandbox", "--disable-gpu", "--no-first-run", f"--user-data-dir={room}"]
        asked = {"capabilities": {"alwaysMatch": {"goog:chromeOptions": {"args": words, "binary": shutil.which("chromium")}}}}
        self.address += "/session/" + retried(lambda: self.post("/session", asked))["sessionId"]

    def post(self, path, body):
        request = urllib.request.Request(self.address + path, json.dumps(body).encode(), {"Content-Type": "application/json"})
        with urllib.request.urlopen(request, timeout=600) as answer:
            return json.load(answer)["value"]

    def open(self, address):
        self.post("/url", {"url": address})

    def element(self, selector):
        return "/element/" + self.post("/element", {"using": "css selector", "value": selector})[ELEMENT]

    def type(self, selector, text):
        self.post(self.element(selector) + "/value", {"text": text})

    def click(self, selector):
        self.post(self.element(selector) + "/click", {})

    def run(self, script):
        return self.post("/execute/sync", {"script": script, "args": []})


class Marionette:
    """WebDriver's commands over Firefox's own socket: each a JSON text behind its length."""

    def __init__(self, port):
        self.socket = retried(lambda: socket.create_connection(("127.0.0.1", port), 600))
        self.number = 0
        self.receive()
        self.ask("WebDriver:NewSession", {})

    def receive(self):
        size = b""
        while not size.endswith(b":"):
            size += self.exactly(1)
        return json.loads(self.exactly(int(size[:-1])))

    def exactly(self, count):
        data = b""
        while len(data) < count:
            piece = self.socket.recv(count - len(data))
            if not piece:
                raise ConnectionError("Marionette ended")
            data += piece
        return data

    def ask(self, command, body):
        self.number += 1
        text = json.dumps([0, self.number, command, body]).encode()
        self.socket.sendall(b"%d:%s" % (len(text), text))
        _, _, error, value = self.receive()
        if error:
            raise RuntimeError(f"{command}: {error}")
        return value

    def open(self, address):
        self.ask("WebDriver:Navigate", {"url": address})

    def element(self, selector):
        return self.ask("WebDriver:FindElement", {"using": "css selector", "value": selector})["value"][ELEMENT]

    def type(self, selector, text):
        self.ask("WebDriver:ElementSendKeys", {"id": self.element(selector), "text": text})

    def click(self, selector):
        self.ask("WebDriver:ElementClick", {"id": self.element(selector)})

    def run(self, script):
        return self.ask("WebDriver:ExecuteScript", {"script": script, "args": []})["value"]


@contextlib.contextmanager
def started(words, room):
    """A process, ended at last."""
    child = subprocess.Popen(words, env={**os.environ, "HOME": room}, **QUIET)
    try:
        yield
    finally:
        child.terminate()
        child.wait(30)


@contextlib.contextmanager
def chromium():
    with tempfile.TemporaryDirectory(ignore_cleanup_errors=True) as room:
        port = free_port()
        with started(["chromedriver", f"--port={port}"], room):
            page = Chromedriver(port, os.path.join(room, "profile"))
            try:
                yield page
            finally:
                urllib.request.urlopen(urllib.request.Request(page.address, method="DELETE"), timeout=60).close()


@contextlib.contextmanager
def firefox():
    with tempfile.TemporaryDirectory(ignore_cleanup_errors=True) as room:
        port = free_port()
        with open(os.path.join(room, "user.js"), "w") as prefs:
            prefs.write(f'user_pref("marionette.port", {port});\n')
        with started(["firefox-esr", "--headless", "--no-remote", "--marionette", "--profile", room], room):
            page = Marionette(port)
            try:
                yield page
            finally:
                page.socket.close()


BROWSERS = {"chromium": (chromium, "chromedriver"), "firefox": (firefox, "firefox-esr")}
