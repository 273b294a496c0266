"""Browsers without a window, driven as WebDriver has it: Chromium by chromedriver, Firefox by the protocol that it speaks itself."""

import base64
import http.client
import json
import os
import re
import shutil
import socket
import subprocess
import tempfile
import time

ELEMENT = "element-6066-11e4-a52e-4f735466cecf"
KEYS = {"Enter": "\ue007", "Tab": "\ue004", "Escape": "\ue00c", "Left": "\ue012", "Up": "\ue013", "Right": "\ue014", "Down": "\ue015", "Home": "\ue011",
        "End": "\ue010", "PageDown": "\ue00f", "PageUp": "\ue00e", "Backspace": "\ue003", "Shift": "\ue008", "Control": "\ue009", "F6": "\ue036"}


class Fault(Exception):
    """What the browser answers in place of a value."""


def ended(child):
    child.terminate()
    try:
        child.wait(20)
    except subprocess.TimeoutExpired:
        child.kill()


class Browser:
    """What both have: commands by the names of WebDriver."""

    def run(self, script, *words):
        """The value of an asynchronous body: `done` is called with it."""
        return self.command("ExecuteAsyncScript", {"script": script, "args": list(words)})

    def value(self, expression, *words):
        """The value of an expression, which may be a promise."""
        script = ("const done = arguments[arguments.length - 1]; const words = [...arguments];"
                  f"(async () => ({expression}))().then((value) => done([value]), (error) => done([null, String(error)]));")
        said = self.run(script, *words)
        if len(said) > 1:
            raise Fault(said[1])
        return said[0]

    def until(self, expression, seconds=20):
        """Waits until an expression holds, and tells its value."""
        end = time.monotonic() + seconds
        while time.monotonic() < end:
            value = self.value(expression)
            if value:
                return value
            time.sleep(0.02)
        raise Fault(f"not so after {seconds} seconds: {expression}")

    def keys(self, *keys):
        """Presses keys one after the other: a text, a name of KEYS, or several that are held, as Shift+Enter."""
        actions = []
        for key in keys:
            held = [KEYS.get(part, part) for part in key.split("+")] if "+" in key and len(key) > 1 else None
            for one in held or ([KEYS[key]] if key in KEYS else key):
                actions += [{"type": "keyDown", "value": one}] + ([] if held else [{"type": "keyUp", "value": one}])
            actions += [{"type": "keyUp", "value": one} for one in reversed(held or [])]
        self.command("PerformActions", {"actions": [{"type": "key", "id": "keys", "actions": actions}]})

    def click(self, selector, twice=False):
        place = self.value("(() => { const box = document.querySelector(words[0]).getBoundingClientRect();"
                           " return [box.x + box.width / 2, box.y + box.height / 2].map(Math.round); })()", selector)
        self.point(*place, twice=twice)

    def point(self, x, y, twice=False):
        press = [{"type": "pointerDown", "button": 0}, {"type": "pointerUp", "button": 0}]
        actions = [{"type": "pointerMove", "duration": 0, "x": x, "y": y, "origin": "viewport"}, *press, *(press if twice else [])]
        self.command("PerformActions", {"actions": [{"type": "pointer", "id": "mouse", "actions": actions}]})

    def choose(self, selector, paths):
        """Picks files in a field for them."""
        found = self.command("FindElement", {"using": "css selector", "value": selector})
        self.send(found[ELEMENT], "\n".join(paths))

    def go(self, address):
        self.command("Navigate", {"url": address})

    def picture(self, path):
        with open(path, "wb") as file:
            file.write(base64.b64decode(self.command("TakeScreenshot", {"full": False})))

    def __enter__(self):
        return self

    def __exit__(self, *_):
        self.close()


PATHS = {"ExecuteAsyncScript": "execute/async", "PerformActions": "actions", "Navigate": "url", "SetWindowRect": "window/rect", "SetTimeouts": "timeouts",
         "FindElement": "element"}


class Chromium(Browser):
    """By chromedriver, over HTTP."""
    name = "chromium"

    def __init__(self, size=(1400, 900), words=()):
        self.room = tempfile.mkdtemp()
        self.driver = subprocess.Popen(["chromedriver", "--port=0"], stdout=subprocess.PIPE, stderr=subprocess.DEVNULL, text=True,
                                       env={**os.environ, "HOME": self.room})
        port = next(re.search(r"successfully on port (\d+)", line)[1] for line in self.driver.stdout if "successfully on port" in line)
        self.way, self.session = http.client.HTTPConnection("127.0.0.1", int(port), timeout=300), None
        options = {"args": ["--headless=new", "--no-sandbox", "--disable-gpu", f"--window-size={size[0]},{size[1]}", f"--user-data-dir={self.room}/data",
                            *words], "prefs": {"download.default_directory": self.room}}
        made = self.ask("POST", "/session", {"capabilities": {"alwaysMatch": {"browserName": "chrome", "goog:chromeOptions": options}}})
        self.session = made["sessionId"]
        self.command("SetTimeouts", {"script": 120000})

    def ask(self, method, path, body=None):
        self.way.request(method, path, json.dumps(body) if body is not None else None, {"Content-Type": "application/json"})
        value = json.loads(self.way.getresponse().read())["value"]
        if isinstance(value, dict) and "error" in value:
            raise Fault(value["message"])
        return value

    def command(self, name, words):
        if name == "TakeScreenshot":
            return self.ask("GET", f"/session/{self.session}/screenshot")
        return self.ask("POST", f"/session/{self.session}/{PATHS[name]}", words)

    def send(self, element, text):
        self.ask("POST", f"/session/{self.session}/element/{element}/value", {"text": text})

    def tool(self, name, words):
        """A command of the browser's own tools."""
        return self.ask("POST", f"/session/{self.session}/goog/cdp/execute", {"cmd": name, "params": words})

    def close(self):
        try:
            self.ask("DELETE", f"/session/{self.session}")
        finally:
            ended(self.driver)
            shutil.rmtree(self.room, ignore_errors=True)


class Firefox(Browser):
    """By its Marionette: messages of JSON, each with its length before it."""
    name = "firefox"

    def __init__(self, size=(1400, 900), words=()):
        self.room = tempfile.mkdtemp()
        with socket.socket() as free:
            free.bind(("127.0.0.1", 0))
            port = free.getsockname()[1]
        prefs = {"marionette.port": port, "browser.download.folderList": 2, "browser.download.dir": self.room, "app.update.disabledForTesting": True}
        with open(os.path.join(self.room, "user.js"), "w", encoding="utf-8") as file:
            file.writelines(f"user_pref({json.dumps(name)}, {json.dumps(value)});\n" for name, value in prefs.items())
        self.child = subprocess.Popen([shutil.which("firefox-esr") or "firefox", "--headless", "--marionette", "--no-remote", "--profile", self.room,
                                       *words], stdout=subprocess.DEVNULL, stderr=subprocess.DEVNULL,
                                      env={**os.environ, "HOME": self.room, "MOZ_HEADLESS_WIDTH": str(size[0]), "MOZ_HEADLESS_HEIGHT": str(size[1])})
        self.way, self.count = self.reached(port), 0
        self.heard()
        self.command("NewSession", {"capabilities": {"alwaysMatch": {}}})
        self.command("SetTimeouts", {"script": 120000})
        self.command("SetWindowRect", {"width": size[0], "height": size[1]})

    def reached(self, port, seconds=60):
        end = time.monotonic() + seconds
        while time.monotonic() < end:
            try:
                return socket.create_connection(("127.0.0.1", port), 300)
            except OSError:
                time.sleep(0.2)
        raise Fault("Firefox didn't listen")

    def heard(self):
        size = b""
        while not size.endswith(b":"):
            size += self.way.recv(1)
        data, due = b"", int(size[:-1])
        while len(data) < due:
            data += self.way.recv(due - len(data))
        return json.loads(data)

    def command(self, name, words):
        self.count += 1
        text = json.dumps([0, self.count, "WebDriver:" + name, words]).encode()
        self.way.sendall(str(len(text)).encode() + b":" + text)
        _, _, error, value = self.heard()
        if error:
            raise Fault(error["message"])
        return value["value"] if isinstance(value, dict) and "value" in value else value

    def send(self, element, text):
        self.command("ElementSendKeys", {"id": element, "text": text})

    def close(self):
        self.way.close()
        ended(self.child)
        shutil.rmtree(self.room, ignore_errors=True)
