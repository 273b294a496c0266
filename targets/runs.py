"""Runs one list of commands by each target, and compares bytes and statuses with the kept program's.

  runs.py [--few] [--in FOLDER] TARGET..

The targets' files are those of FOLDER, else of targets/out/ where they are there, else of dist/. TARGET is x86_64-linux-static,
aarch64-linux-static (by qemu-aarch64), x86_64-windows (by wine), wasm64-chromium, wasm64-firefox, wasm64-node, or the library by a program in C:
aarch64-linux-library or x86_64-windows-library. With --few every 29th command is run.
IPG names the kept program where it isn't dist/ipg. Ends with status 1 where one differs, and with 3 where what runs a target is wanting.
"""

import contextlib
import hashlib
import json
import os
import shutil
import subprocess
import sys
import tempfile
from concurrent.futures import ThreadPoolExecutor

import edges
import hostile
import library
import web

HERE = os.path.dirname(os.path.abspath(__file__))
TOP = os.path.dirname(HERE)
KEPT = os.path.abspath(os.environ.get("IPG", os.path.join(TOP, "dist", "ipg")))
BUILT_IN = ("elf", "pe", "gif", "pcap")
TARGETS = {  # the file, and what it takes to run it
    "x86_64-linux-static": ("ipg-static", []),
    "aarch64-linux-static": ("ipg-aarch64", ["qemu-aarch64"]),
    "x86_64-windows": ("ipg.exe", ["wine"]),
    "wasm64-chromium": ("ipg.wasm", ["chromium"]),
    "wasm64-firefox": ("ipg.wasm", ["firefox-esr"]),
    "wasm64-node": ("ipg.wasm", ["node"]),
    "aarch64-linux-library": ("libipg-aarch64.so", ["qemu-aarch64", "aarch64-linux-gnu-gcc"]),
    "x86_64-windows-library": ("ipg.dll", ["wine", "x86_64-w64-mingw32-gcc"]),
}


def write(folder, name, data):
    with open(os.path.join(folder, name), "wb") as file:
        file.write(data)


def said(words, folder):
    done = subprocess.run([KEPT, *words], cwd=folder, stdin=subprocess.DEVNULL, capture_output=True, timeout=300)
    return done.returncode, done.stdout


def make_samples(folder):
    """A sample of each format with its grammar, of the built-in ones too, and two broken ones of each; the pairs of a grammar and a sample."""
    subprocess.run([sys.executable, os.path.join(TOP, "formats", "samples.py"), folder], check=True)
    names = sorted(os.listdir(folder))
    for name in names:
        shutil.copy(os.path.join(TOP, "formats", f"{name}.ipg"), folder)
    for kind in BUILT_IN:
        maker = os.path.join(TOP, "bench", "files.py")
        write(folder, kind, subprocess.run([sys.executable, maker, kind, "20"], check=True, capture_output=True).stdout)
    pairs = [(f"{name}.ipg", name) for name in names] + [(f"@{kind}", kind) for kind in BUILT_IN]
    for _, name in pairs:
        with open(os.path.join(folder, name), "rb") as file:
            data = file.read()
        write(folder, f"{name}.half", data[: len(data) // 2])
        write(folder, f"{name}.other", bytes([data[0] ^ 0x55]) + data[1:])
    return pairs


def sample_runs(folder, pairs):
    """What is asked of each grammar, its sample and the broken ones."""
    runs = []
    for grammar, name in pairs:
        runs += [[verb, grammar, name] for verb in ("parse", "json", "view", "explain", "rebuild")]
        runs += [[verb, grammar] for verb in ("check", "cert", "fmt", "table", "cover")]
        runs += [[verb, grammar, f"{name}.{how}"] for how in ("half", "other") for verb in ("parse", "explain")]
        runs += [["parse", grammar, name, "--memo", "off"]]
        for verb, reader in (("table", "load"), ("cert", "verify")):
            made = f"{name}.{verb}"
            write(folder, made, said([verb, grammar], folder)[1])
            runs += [[reader, made, name] if reader == "load" else [reader, grammar, made]]
    return runs


def other_runs(folder):
    """Statuses, usage, help, paths, edits, outputs larger than any buffer, calls within one another, names beyond ASCII."""
    write(folder, "deep.ipg", b'S -> U8 S[1, EOI] / "" ;\n')
    write(folder, "deep", bytes(100000))
    write(folder, "range.ipg", b"S -> {a = 9223372036854775807} {b = a + 1} ;")
    write(folder, "loop.ipg", b'S -> S[0, EOI] / "a" ;')
    write(folder, "nest.ipg", b"S -> U8 {a = " + b"(" * 300 + b"1" + b")" * 300 + b"} ;")
    write(folder, "wrong.cert", b"no certificate\n")
    write(folder, "script", b"0 1 00\n")
    write(folder, "empty", b"")
    shutil.copy(os.path.join(folder, "gif"), os.path.join(folder, "Bild \u00fc\u4e2d\U0001f600.gif"))
    runs = [[], ["help"], ["version"], ["parse"], ["nothing"], ["parse", "@gif"], ["parse", "@gif", "gif", "more"], [""], ["parse", "@none", "gif"]]
    runs += [["help", verb] for verb in "parse view json query check explain fmt cert verify table load cover rebuild edit trial help version".split()]
    runs += [["trial", kind, count] for kind in BUILT_IN for count in ("0", "1", "20", "-1", "x", "99999999999999999999")]
    runs += [["parse", "@gif", "gone"], ["parse", "gone", "gif"], ["check", "gone"], ["parse", "@gif", "empty"], ["check", "empty"], ["check", "gif"]]
    runs += [["parse", "range.ipg", "deep"], ["check", "loop.ipg"], ["explain", "loop.ipg"], ["check", "nest.ipg"], ["explain", "nest.ipg"]]
    runs += [["verify", "@gif", "wrong.cert"], ["load", "wrong.cert", "gif"], ["load", "gif.table", "gone"], ["edit", "@gif", "gif", "script"]]
    runs += [["edit", "@gif", "gif", "wrong.cert"], ["query", "@elf", "elf", "Head.shnum"], ["query", "@elf", "elf", "**"], ["query", "@elf", "elf", "]"]]
    runs += [["view", "@elf", "elf", "Head"], ["json", "@pcap", "pcap"], ["parse", "@gif", "Bild \u00fc\u4e2d\U0001f600.gif"], ["parse", "@gif", "\u00fc"]]
    runs += [[verb, "deep.ipg", "deep"] for verb in ("parse", "explain", "json", "view", "rebuild")]
    runs += [["parse", "deep.ipg", "deep", "--memo", "off"], ["query", "deep.ipg", "deep", "S.S"]]
    return runs


DEEP = {"parentheses": ("(", ")"), "minus": ("-", ""), "not": ("!", ""), "sum": ("1+", ""), "choice": ("1?2:", "")}


def deep_runs(folder):
    """Expressions as deep as a text of 2^20 bytes holds: whole, and open at the end."""
    found = []
    for name, (unit, last) in DEEP.items():
        count = ((1 << 20) - 20) // len(unit + last)
        for how, text in (("whole", f'S -> ?({unit * count}1{last * count}) "" ;'), ("open", f"S -> ?({unit * count}")):
            made = f"deep-{name}-{how}.ipg"
            write(folder, made, text.encode())
            found += [[verb, made] for verb in ("check", "explain")]
    return found


def hostile_runs(folder):
    """Texts that ask much of `check`, those that are to be answered in a second, and of the reader."""
    made = os.path.join(folder, "hostile")
    os.mkdir(made)
    maker = os.path.join(TOP, "bench", "hostile_texts.py")
    rows = subprocess.run([sys.executable, maker, made], check=True, capture_output=True, text=True).stdout.splitlines()
    names = [os.path.relpath(row.split("\t")[1], folder) for row in rows if float(row.split("\t")[2]) <= 1]
    for name, text in hostile.texts():
        write(made, name, text)
        names.append(f"hostile/{name}")
    return [[verb, name] for name in names for verb in ("check", "explain")]


def make_runs(folder, few):
    """The list: words, the files that they name, and what the kept program says."""
    pairs = make_samples(folder)
    runs = sample_runs(folder, pairs) + other_runs(folder) + deep_runs(folder) + hostile_runs(folder)
    runs = runs[::29] if few else runs
    with ThreadPoolExecutor(2) as pool:
        told = list(pool.map(lambda words: said(words, folder), runs))
    found = []
    for words, (status, text) in zip(runs, told):
        files = sorted({word for word in words if word and os.path.isfile(os.path.join(folder, word))})
        found.append({"words": words, "files": files, "status": status, "sum": hashlib.sha256(text).hexdigest(), "size": len(text)})
    return found


def call(command, words, folder):
    how = {"stdin": subprocess.DEVNULL, "stdout": subprocess.PIPE, "stderr": subprocess.DEVNULL, "timeout": 900}
    try:
        done = subprocess.run([*command, *words], cwd=folder, check=False, **how)
    except subprocess.TimeoutExpired:
        return "none in 900 seconds", b""
    return done.returncode, done.stdout


def native(command, folder, runs):
    """What differs, of a target that this system starts."""
    def differs(run):
        status, text = call(command, run["words"], folder)
        if command[0] == "wine" and (status, text) == (1, b""):  # wine itself didn't start, on a busy machine; the program writes where it ends so
            status, text = call(command, run["words"], folder)
        if (status, hashlib.sha256(text).hexdigest()) == (run["status"], run["sum"]):
            return None
        return f"{run['words']}: status {status}, due {run['status']}; {len(text)} bytes, due {run['size']}"

    with ThreadPoolExecutor(2) as pool:
        return [it for it in pool.map(differs, runs) if it]


@contextlib.contextmanager
def wine_room():
    """Gives wine a folder of its own, and ends what it started there."""
    with tempfile.TemporaryDirectory(ignore_cleanup_errors=True) as prefix:
        os.environ.update(WINEPREFIX=prefix, WINEDEBUG="-all", WINEDLLOVERRIDES="mscoree,mshtml=")
        quiet = {"stdin": subprocess.DEVNULL, "stdout": subprocess.DEVNULL, "stderr": subprocess.DEVNULL}
        subprocess.run(["wine", "cmd", "/c", "exit"], check=False, **quiet)
        try:
            yield
        finally:
            subprocess.run(["wineserver", "-k"], check=False, **quiet)


def program_of(folder, name):
    for place in [folder] if folder else [os.path.join(HERE, "out"), os.path.join(TOP, "dist")]:
        if os.path.exists(os.path.join(place, name)):
            return os.path.abspath(os.path.join(place, name))
    return None


def node_package(program, folder):
    """A folder with what the package for Node has, and what runs the list there."""
    made = os.path.join(folder, "node")
    os.mkdir(made)
    shutil.copy(program, made)
    for name in ("cli.mjs", "ipg.mjs", "node_runs.mjs", "node_speed.mjs", "tests.mjs"):
        shutil.copy(os.path.join(HERE, name), made)
    return made


def node_words():
    """Node, told to have 64-bit memories where it has none by itself."""
    asked = "process.exit(WebAssembly.validate(Uint8Array.of(0, 97, 115, 109, 1, 0, 0, 0, 5, 3, 1, 4, 1)) ? 0 : 1)"
    has_them = subprocess.run(["node", "-e", asked], check=False).returncode == 0
    return ["node"] if has_them else ["node", "--experimental-wasm-memory64"]


def node_faults(program, folder, runs):
    """What differs in Node: the whole list in one process; every 29th command and the system's edges by the command of the package."""
    package = node_package(program, folder)
    words = [*node_words(), os.path.join(package, "node_runs.mjs")]
    done = subprocess.run(words, cwd=folder, input=json.dumps(runs).encode(), stdout=subprocess.PIPE, timeout=3600, check=False)
    found = json.loads(done.stdout) if done.returncode == 0 else [f"node_runs.mjs: status {done.returncode}"]
    command = ["node", os.path.join(package, "cli.mjs")]
    return found + native(command, folder, runs[::29]) + edges.faults("wasm64-node", command, KEPT, folder)


def faults_of(target, program, folder, runs):
    """What differs, by whatever runs the target."""
    _, tools = TARGETS[target]
    if target == "wasm64-node":
        return node_faults(program, folder, runs)
    if target.startswith("wasm64"):
        return web.faults(tools[0], program, folder, runs)
    if target.endswith("-library"):
        return library.faults(target, program, folder, runs)
    command = [*tools, program]
    return native(command, folder, runs) + edges.faults(target, command, KEPT, folder)


def judge(target, place, folder, runs):
    """0, or 1 where something differs, or 3 where the target can't be run here."""
    name, tools = TARGETS[target]
    program = program_of(place, name)
    wanting = [tool for tool in tools if not shutil.which(tool)] if program else [name]
    if wanting:
        print(f"targets: {target}: left out, for want of {wanting[0]}")
        return 3
    with wine_room() if "wine" in tools else contextlib.nullcontext():
        faults = faults_of(target, program, folder, runs)
    for fault in faults:
        print(f"targets: {target}: {fault}"[:400])
    print(f"targets: {target}: {len(runs)} commands, {len(faults)} faults")
    return 1 if faults else 0


def main(words):
    few = "--few" in words
    words = [word for word in words if word != "--few"]
    place = None
    if words[:1] == ["--in"]:
        place, words = words[1], words[2:]
    if not words or any(word not in TARGETS for word in words):
        sys.exit(__doc__)
    with tempfile.TemporaryDirectory() as folder:
        runs = make_runs(folder, few)
        statuses = {judge(target, place, folder, runs) for target in words}
        return 1 if 1 in statuses else max(statuses)


if __name__ == "__main__":
    sys.exit(main(sys.argv[1:]))
