"""Wrong bodies: each edit is put into a copy of its crate, and the prover must refuse the very function that it changes.

  wrong_bodies.py [--all] [--minutes N] [CRATE..]

The edits are those of crates/*/wrong-bodies/, with --all those of must-fail/ and more-edits/ too. One function of a crate is
proved in some twenty seconds to two minutes, where the gate's own try proves the crate. The libraries below must have been
proved and built in this checkout, as `rt ci` leaves them. What was refused is kept by the checksums of all that it stands
on, below the user's cache, and not tried again. With --minutes none is begun after so many. A line for each edit that isn't
refused, and last how many there are; ends with status 1 where one isn't refused, and with 77 where a library is missing.
"""

import argparse
import concurrent.futures
import hashlib
import os
import re
import shutil
import subprocess
import sys
import tempfile
import time

PARTS = ("src", "specs", "proofs")
FUNCTION = re.compile(r"^( {4})?(?:pub(?:\(crate\))? )?(?:const |unsafe |extern \"C\" )*fn (\w+)")
IMPL = re.compile(r"^(?:pub )?(?:impl|trait)\b(?:<[^{]*?>)? ?(?:(\w+)(?:<.*>)? for )?&?(?:'\w+ )?([\w:]+)")
BYTES_EACH = 2 << 30
WAY = "1"  # of trying an edit: another number, and nothing that was kept counts


def kit():
    return os.path.dirname(subprocess.run(["rt", "doc"], capture_output=True, text=True, check=True).stdout.strip())


def read(path):
    with open(path, encoding="utf-8") as file:
        return file.read()


class Crates:
    """The crates of crates.txt, and what the prover is told of each."""

    def __init__(self):
        self.kit = kit()
        lines = [line.split("#")[0] for line in read("crates.txt").splitlines()]
        heads = [line.partition(":") for line in lines if ":" in line]
        self.static = {head.split()[0] for head, _, _ in heads if head.split()[1:] == ["staticlib"]}
        self.uses = {head.split()[0]: names.split() for head, _, names in heads}

    def below(self, name):
        """All own crates below, each once."""
        found = []
        for use in self.uses[name]:
            if use in self.uses:
                found += [crate for crate in (*self.below(use), use) if crate not in found]
        return found

    def library(self, name):
        return os.path.abspath(f"crates/{name}/out/rlib/{name}.rlib")

    def missing(self, name):
        return [use for use in self.below(name) if not os.path.exists(self.library(use))]

    def words(self, name):
        root = "src/lib.rt" if os.path.exists(f"crates/{name}/src/lib.rt") else "src/main.rt"
        given = ["--crate-name", name, root]
        for use in ("std", *(use for use in self.uses[name] if use not in self.uses)):
            given += ["--extern", f"{use}={self.kit}/rlibs/{use}.rlib"]
        for use in self.uses[name]:
            given += ["--extern", f"{use}={self.library(use)}"] if use in self.uses else []
        for folder in (f"{self.kit}/rlibs", *(os.path.dirname(self.library(use)) for use in self.below(name))):
            given += ["-L", f"dependency={folder}"]
        given += ["--antt-project", f"{self.kit}/rattle/logic/antt-project.json", "--logic-built", f"{self.kit}/logic_built"]
        given += ["--links", f"{name}=", "--jobs", "1"]
        return given + (["--crate-type", "staticlib"] if name in self.static else [])

    def sum(self, name):
        """Of the crate's sources and those of all below, and of the kit."""
        told = hashlib.sha256(read(f"{self.kit}/KIT-ID").encode())
        for crate in (*self.below(name), name):
            told.update(f"{crate} {self.uses[crate]}".encode())
            for part in PARTS:
                for folder, folders, files in os.walk(f"crates/{crate}/{part}"):
                    folders.sort()
                    for file in sorted(files):
                        told.update(f"{folder}/{file}".encode() + read(f"{folder}/{file}").encode())
        return told.hexdigest()


class Edit:
    """A wrong body: its crate, and the lines that it changes."""

    def __init__(self, path):
        self.path, self.crate = path, path.split(os.sep)[1]
        self.pairs, file = [], None
        for line in read(path).splitlines():
            word, _, text = line.partition(": ")
            if word == "file":
                file = text
            elif word == "old":
                self.pairs.append([file, text, None])
            elif word == "new":
                self.pairs[-1][2] = text

    def texts(self):
        """The changed files, and the functions that the changes lie in; ValueError where a text doesn't stand once."""
        texts, functions = {}, []
        for file, old, new in self.pairs:
            text = texts.get(file) or read(f"crates/{self.crate}/{file}")
            if text.count(old) != 1:
                raise ValueError(f"its text stands {text.count(old)} times in {file}")
            functions.append(function_at(file, text, text.count("\n", 0, text.index(old))))
            texts[file] = text.replace(old, new)
        if not self.pairs:
            raise ValueError("it changes nothing")
        return texts, sorted(set(functions))


def function_at(file, text, at):
    """The path of the function that a line lies in; a method's begins with its type, which may lie in another module."""
    lines = text.splitlines()
    for number in range(at, -1, -1):
        found = FUNCTION.match(lines[number])
        if found:
            break
    else:
        raise ValueError(f"{file}:{at + 1} lies in no function")
    parts = [part for part in file[len("src/") : -len(".rt")].split("/") if part not in ("lib", "main", "mod")]
    if found.group(1):
        impl = next(IMPL.match(line) for line in reversed(lines[:number]) if IMPL.match(line))
        parts = [impl.group(2).split("::")[-1] + (impl.group(1) or "")]
    return "::".join([*parts, found.group(2)])


def refused(crates, edit):
    """None where the prover refuses the changed function; else what it said."""
    try:
        texts, functions = edit.texts()
    except ValueError as error:
        return str(error)
    with tempfile.TemporaryDirectory(prefix="wrong-body-") as room:
        for part in PARTS:
            if os.path.isdir(f"crates/{edit.crate}/{part}"):
                shutil.copytree(f"crates/{edit.crate}/{part}", f"{room}/{part}")
        for file, text in texts.items():
            with open(f"{room}/{file}", "w", encoding="utf-8") as out:
                out.write(text)
        words = [f"{crates.kit}/bin/rattle", "check", *crates.words(edit.crate)]
        for function in functions:
            words += ["--only", function]
        said = subprocess.run(words, cwd=room, stdin=subprocess.DEVNULL, stdout=subprocess.PIPE, stderr=subprocess.STDOUT, check=False)
    return fault_of(edit.crate, functions, said.returncode, said.stdout.decode(errors="replace"))


def fault_of(crate, functions, status, text):
    """Why that is no refusal of one of the functions, if so."""
    lines = text.rstrip("\n").split("\n")
    if status == 0:
        return f"not refused: {lines[-1]}"
    if status != 1 or not re.fullmatch(r"only=\d+ proved=\d+", lines[-1]) or lines[-1].startswith("only=0"):
        return f"not tried, status {status}: " + " | ".join(line for line in lines if "error" in line or line == lines[-1])[:300]
    return None if any(is_named(crate, function, text) for function in functions) else f"refused, but not for {', '.join(functions)}: {lines[0][:200]}"


def is_named(crate, function, text):
    """Whether what was said is of this function: that it has no proof, or a fault in its proof, alone or in a group that calls itself."""
    path, name = re.escape(function.replace("::", "/")), re.escape(function.split("::")[-1])
    return re.search(rf"fn {crate}::(\w+::)*{re.escape(function)}: no proof|proofs/(\w+/)*{path}/|proofs/(\w+/)*\+\w+/.*goal\.{name}-", text)


def kept_at(crates_sum, edit):
    cache = os.environ.get("XDG_CACHE_HOME") or os.path.expanduser("~/.cache")
    return os.path.join(cache, "ipg", "wrong-bodies", hashlib.sha256((crates_sum + read(edit.path) + WAY).encode()).hexdigest())


def tried(crates, sums, edit, until):
    """Whether the edit is refused, and None where its turn comes too late; says so where it isn't refused."""
    kept = kept_at(sums[edit.crate], edit)
    if os.path.exists(kept):
        return True
    if time.monotonic() > until:
        return None
    fault = refused(crates, edit)
    if fault:
        print(f"wrong_bodies: {edit.path}: {fault}", flush=True)
        return False
    os.makedirs(os.path.dirname(kept), exist_ok=True)
    with open(kept, "w", encoding="utf-8") as file:
        file.write(edit.path + "\n")
    return True


def at_once():
    free = int(re.search(r"MemAvailable: +(\d+)", read("/proc/meminfo")).group(1)) << 10
    return max(1, min(len(os.sched_getaffinity(0)), free // 2 // BYTES_EACH))


def words_of(arguments):
    parser = argparse.ArgumentParser()
    parser.add_argument("--all", action="store_true")
    parser.add_argument("--minutes", type=float, default=float("inf"))
    parser.add_argument("crates", nargs="*")
    return parser.parse_args(arguments)


def edits_of(crates, words):
    rooms = ("wrong-bodies", "must-fail", "more-edits") if words.all else ("wrong-bodies",)
    folders = [f"crates/{name}/{room}" for name in sorted(crates.uses) if not words.crates or name in words.crates for room in rooms]
    return [Edit(f"{folder}/{file}") for folder in folders if os.path.isdir(folder) for file in sorted(os.listdir(folder)) if file.endswith(".edit")]


def main():
    words = words_of(sys.argv[1:])
    os.chdir(os.path.join(os.path.dirname(os.path.abspath(__file__)), ".."))
    crates = Crates()
    edits = edits_of(crates, words)
    missing = sorted({use for edit in edits for use in crates.missing(edit.crate)})
    if missing:
        print(f"wrong_bodies: not built here: {' '.join(missing)}")
        return 77
    sums = {name: crates.sum(name) for name in {edit.crate for edit in edits}}
    until = time.monotonic() + 60 * words.minutes
    with concurrent.futures.ThreadPoolExecutor(at_once()) as pool:
        answers = list(pool.map(lambda edit: tried(crates, sums, edit, until), edits))
    late = f", {answers.count(None)} not reached in {words.minutes:g} minutes" if None in answers else ""
    print(f"wrong_bodies: {len(edits)} edits in {len(sums)} crates, {answers.count(True)} refused{late}")
    return 1 if False in answers else 0


if __name__ == "__main__":
    sys.exit(main())
