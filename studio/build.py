#!/usr/bin/env python3
"""Puts the studio into one page: its modules, style, the parser as WebAssembly, and all grammars with a sample each.

  build.py [--module FILE] [--keep | PAGE]

Writes PAGE, by default studio/out/studio.html; the same files and the same zlib give the same bytes. With --keep it writes dist/studio.html,
and dist/STUDIO: the sums of what that was made of.
"""

import base64
import gzip
import hashlib
import json
import os
import re
import subprocess
import sys
import tempfile

HERE = os.path.dirname(os.path.abspath(__file__))
TOP = os.path.dirname(HERE)
MOST = 2_000_000
WORKER = ["../targets/ipg.mjs", "columns.mjs", "lexer.mjs", "worker.mjs"]
PAGE = ["columns.mjs", "scroller.mjs", "lexer.mjs", "report.mjs", "paths.mjs", "link.mjs", "formats.mjs", "desk.mjs", "editor.mjs", "tree_pane.mjs",
        "byte_pane.mjs", "details.mjs", "main.mjs"]
PARTS = ["page.html", "style.css", "build.py", *sorted({*PAGE, *WORKER})]
BUILT_IN = {"@elf": ("elf", 40), "@gif": ("gif", 3), "@pcap": ("pcap", 20), "@pe": ("pe", 6)}
IMPORT = re.compile(r'^import (\{.*\}) from "([^"]*)";\n', re.M)
EXPORT = re.compile(r"^export (?=(?:async )?(?:class|const|function)\*? (\w+))", re.M)


def text_of(*names):
    with open(os.path.join(TOP, *names), encoding="utf-8") as file:
        return file.read()


def room(path):
    """What a module's exports are called in a script of several."""
    return "$" + os.path.basename(path).partition(".")[0]


def module(name):
    """A module as a function of its own, which gives what it exports."""
    text = text_of("studio", name)
    body = IMPORT.sub(lambda found: f"const {found[1]} = {room(found[2])};\n", text)
    return f"const {room(name)} = (() => {{\n{EXPORT.sub('', body)}return {{ {', '.join(EXPORT.findall(text))} }};\n}})();\n"


def bundle(names):
    """Modules as one script, each behind those that it imports; it is given its parser, and has no place to look for one."""
    return '"use strict";\n' + "".join(map(module, names)).replace("import.meta.url", "undefined")


def inner(text):
    """Text that may stand in an element of scripts or style."""
    if re.search(r"</(script|style)|<!--", text, re.I):
        raise SystemExit("build: a script or the style would end early")
    return text


def output_of(*words):
    return subprocess.run(words, stdout=subprocess.PIPE, check=True).stdout


def samples():
    """A small file for each grammar."""
    made = {name: output_of(sys.executable, os.path.join(TOP, "bench", "files.py"), *map(str, words)) for name, words in BUILT_IN.items()}
    with tempfile.TemporaryDirectory() as folder:
        subprocess.run([sys.executable, "-B", os.path.join(TOP, "formats", "samples.py"), folder], check=True)
        for name in sorted(os.listdir(folder)):
            with open(os.path.join(folder, name), "rb") as file:
                made[name] = file.read()
    return made


def grammars():
    names = sorted(name[:-4] for name in os.listdir(os.path.join(TOP, "formats")) if name.endswith(".ipg"))
    built_in = {name: output_of(os.path.join(TOP, "dist", "ipg"), "fmt", name).decode() for name in BUILT_IN}
    return built_in | {name: text_of("formats", name + ".ipg") for name in names}


def magic():
    lines = (line.split() for line in text_of("formats", "MAGIC").splitlines() if line and not line.startswith("#"))
    return [{"name": name, "place": int(place), "bytes": digits} for name, place, digits in lines]


def packed(data):
    return base64.b64encode(gzip.compress(data, 9, mtime=0)).decode()


def formats():
    known = grammars()
    small = {name: base64.b64encode(data).decode() for name, data in samples().items() if name in known}
    return json.dumps({"grammars": known, "samples": small, "magic": magic()}, sort_keys=True).encode()


def digest(text):
    return "'sha256-" + base64.b64encode(hashlib.sha256(text.encode()).digest()).decode() + "'"


def page_of(parser):
    style, script = inner(text_of("studio", "style.css")), inner(bundle(PAGE))
    policy = (f"default-src 'none'; script-src {digest(script)} 'wasm-unsafe-eval'; style-src {digest(style)}; worker-src blob:; "
              "base-uri 'none'; form-action 'none'")
    parts = {"policy": policy, "style": style, "script": script, "worker": inner(bundle(WORKER)), "module": packed(parser),
             "formats": packed(formats())}
    return re.sub("@([a-z]+)@", lambda found: parts[found[1]], text_of("studio", "page.html"))


def made_of():
    """What the page is made of, by path."""
    paths = [os.path.normpath(os.path.join("studio", name)) for name in PARTS]
    shared = ["formats/" + name for name in os.listdir(os.path.join(TOP, "formats")) if name.endswith(".ipg")]
    return sorted([*paths, *shared, "formats/MAGIC", "formats/samples.py", "bench/files.py", "dist/ipg.wasm"])


def sums():
    lines = []
    for path in made_of():
        with open(os.path.join(TOP, path), "rb") as file:
            lines.append(f"{hashlib.sha256(file.read()).hexdigest()}  {path}\n")
    return "".join(lines)


def main():
    words = sys.argv[1:]
    place = os.path.join(TOP, "dist", "ipg.wasm")
    if words[:1] == ["--module"]:
        place, words = words[1], words[2:]
    keeps = words[:1] == ["--keep"]
    target = os.path.join(TOP, "dist", "studio.html") if keeps else (words or [os.path.join(HERE, "out", "studio.html")])[0]
    with open(place, "rb") as file:
        page = page_of(file.read()).encode()
    if len(page) > MOST:
        raise SystemExit(f"build: the page has {len(page)} bytes, more than {MOST}")
    os.makedirs(os.path.dirname(os.path.abspath(target)), exist_ok=True)
    with open(target, "wb") as file:
        file.write(page)
    if keeps:
        with open(os.path.join(TOP, "dist", "STUDIO"), "w", encoding="utf-8") as file:
            file.write(sums())
    print(f"build: {target}, {len(page)} bytes")


if __name__ == "__main__":
    main()
