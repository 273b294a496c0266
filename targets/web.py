"""A browser without a window: it is sent a script from here, with a list of commands, and sends back what came of them."""

import http.server
import json
import os
import subprocess
import tempfile
import threading

HERE = os.path.dirname(os.path.abspath(__file__))
KINDS = {".mjs": "text/javascript", ".html": "text/html", ".wasm": "application/wasm"}
PAGE = "<!doctype html><meta charset=utf-8><script type=module src=/{}></script>"


class Desk:
    """What is served, and what came back."""

    def __init__(self, script, program, folder, runs):
        self.script, self.program, self.folder, self.runs = script, program, folder, runs
        self.said, self.told = None, threading.Event()

    def answer(self, path):
        if path == "/":
            return ".html", PAGE.format(self.script).encode()
        if path == "/runs.json":
            return ".json", json.dumps(self.runs).encode()
        place = self.program if path == "/ipg.wasm" else os.path.join(HERE, path[1:])
        if path.startswith("/data/"):
            place = os.path.join(self.folder, bytes.fromhex(path[6:]).decode())
        with open(place, "rb") as file:
            return os.path.splitext(place)[1], file.read()


def handler(desk):
    class Handler(http.server.BaseHTTPRequestHandler):
        def do_GET(self):
            try:
                kind, data = desk.answer(self.path)
            except OSError:
                self.send_error(404)
                return
            self.send_response(200)
            self.send_header("Content-Type", KINDS.get(kind, "application/octet-stream"))
            self.send_header("Content-Length", str(len(data)))
            self.end_headers()
            self.wfile.write(data)

        def do_POST(self):
            desk.said = json.loads(self.rfile.read(int(self.headers["Content-Length"])))
            self.send_response(204)
            self.end_headers()
            desk.told.set()

        def log_message(self, *_):
            pass

    return Handler


def words_of(browser, room, address):
    if browser.startswith("firefox"):
        return [browser, "--headless", "--no-remote", "--profile", room, address]
    return [browser, "--headless=new", "--no-sandbox", "--disable-gpu", "--no-first-run", f"--user-data-dir={room}", address]


def ask(browser, script, program, folder, runs, seconds=3600):
    """What the script sent back from the browser; None where it sent nothing."""
    desk = Desk(script, program, folder, runs)
    server = http.server.ThreadingHTTPServer(("127.0.0.1", 0), handler(desk))
    threading.Thread(target=server.serve_forever, daemon=True).start()
    with tempfile.TemporaryDirectory(ignore_cleanup_errors=True) as room:
        words = words_of(browser, room, f"http://127.0.0.1:{server.server_address[1]}/")
        how = {"stdout": subprocess.DEVNULL, "stderr": subprocess.DEVNULL, "env": {**os.environ, "HOME": room}}
        child = subprocess.Popen(words, **how)
        desk.told.wait(seconds)
        child.terminate()
        try:
            child.wait(30)
        except subprocess.TimeoutExpired:
            child.kill()
            child.wait()
    server.shutdown()
    return desk.said


def faults(browser, program, folder, runs):
    """What differs in the browser; that it sent nothing is a fault."""
    said = ask(browser, "web_runs.mjs", program, folder, runs)
    return said if said is not None else [f"{browser} sent nothing"]
