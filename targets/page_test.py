"""The page that parses a file of one's own, served from a folder, in browsers: page_test.py [--in FOLDER] BROWSER..

It is driven as a reader would: a grammar is typed, a file chosen, the button pressed. What the page then shows is compared with what the kept
program says. BROWSER is chromium or firefox. Ends with status 1 where something differs, and with 3 where a browser is wanting.
"""

import functools
import http.server
import os
import shutil
import subprocess
import sys
import tempfile
import threading
import time

import drivers

HERE = os.path.dirname(os.path.abspath(__file__))
TOP = os.path.dirname(HERE)
KEPT = os.path.abspath(os.environ.get("IPG", os.path.join(TOP, "dist", "ipg")))
GRAMMAR = 'Pairs -> many Pair End ;\nPair -> U8 {size = U8.val} ?(size > 0) Bytes[size] ;\nEnd -> ?(EOI == 0) "" ;\n'
FILES = {"pairs": b"\2ab\1c", "broken": b"\2ab\7c", "picture \u00fc.gif": bytes.fromhex("474946383961010001000000002c00000000030004000002024c01003b")}
RUNS = ((GRAMMAR, "pairs", "view"), (GRAMMAR, "broken", "explain"), ("S -> ", "pairs", "explain"), ("@gif", "picture \u00fc.gif", "view"))


class Quiet(http.server.SimpleHTTPRequestHandler):
    extensions_map = {".mjs": "text/javascript", ".html": "text/html", ".wasm": "application/wasm", "": "application/octet-stream"}

    def log_message(self, *_):
        pass


def site(folder, module):
    """Puts there what the page wants, and serves it: the page's address."""
    os.mkdir(folder)
    for name in ("page.html", "ipg.mjs"):
        shutil.copy(os.path.join(HERE, name), folder)
    shutil.copy(module, os.path.join(folder, "ipg.wasm"))
    server = http.server.ThreadingHTTPServer(("127.0.0.1", 0), functools.partial(Quiet, directory=folder))
    threading.Thread(target=server.serve_forever, daemon=True).start()
    return f"http://127.0.0.1:{server.server_address[1]}/page.html"


def due(grammar, name, verb, folder):
    with open(os.path.join(folder, "grammar"), "w") as file:
        file.write(grammar)
    words = [KEPT, verb, grammar if grammar.startswith("@") else "grammar", name]
    return subprocess.run(words, cwd=folder, capture_output=True).stdout.decode()


def shown(page, address, grammar, path):
    """What the page shows of a file by a grammar."""
    page.open(address)
    page.run("document.getElementById('grammar').value = ''")
    page.type("#grammar", grammar)
    page.type("#file", path)
    for turn in range(3000):
        # a browser that has much to do may lose a click
        if turn % 100 == 0:
            page.click("#view")
        text = page.run("return document.getElementById('says').textContent")
        if text:
            return text
        time.sleep(0.1)
    return "nothing in 300 seconds"


def faults(browser, address, folder):
    with browser() as page:
        for grammar, name, verb in RUNS:
            got, wanted = shown(page, address, grammar, os.path.join(folder, name)), due(grammar, name, verb, folder)
            if got != wanted:
                yield f"{verb} {name}: {got[:150]!r}, due {wanted[:150]!r}"


def judge(name, address, folder):
    browser, driver = drivers.BROWSERS[name]
    if not shutil.which(driver):
        print(f"page: {name}: left out, for want of {driver}")
        return 3
    found = list(faults(browser, address, folder))
    for fault in found:
        print(f"page: {name}: {fault}")
    print(f"page: {name}: {len(RUNS)} files, {len(found)} faults")
    return 1 if found else 0


def main(words):
    module = os.path.join(TOP, "dist", "ipg.wasm")
    if words[:1] == ["--in"]:
        module, words = os.path.join(words[1], "ipg.wasm"), words[2:]
    if not words or any(word not in drivers.BROWSERS for word in words):
        sys.exit(__doc__)
    with tempfile.TemporaryDirectory() as folder:
        for name, data in FILES.items():
            with open(os.path.join(folder, name), "wb") as file:
                file.write(data)
        address = site(os.path.join(folder, "site"), module)
        statuses = {judge(word, address, folder) for word in words}
        return 1 if 1 in statuses else max(statuses)


if __name__ == "__main__":
    sys.exit(main(sys.argv[1:]))
