"""Cases made by independent implementations, and texts worked by hand: what a command says of each, and its status.

  vectors.py parses|counts|queries|certificates|conditions|earlier|texts COMMAND..

COMMAND is followed by the name of a grammar's file, and for a parse, its counts, a query or a certificate by that of the
input or the certificate, and for a query by the path. A grammar that begins with `@` is built in. A case of `texts` has its
files by name, and runs of words, which all say the same; `> NAME` at the end of a run keeps what it says as a file in place
of comparing it. A text may be a list of pieces, some with how often they stand. Ends with status 1 where a case differs.
"""

import json
import os
import subprocess
import sys
import tempfile

HERE = os.path.dirname(os.path.abspath(__file__))
# the counts stand beside the parses
FILES = {"counts": "parses"}


def files_of(kind, case):
    """What stands in the command's files."""
    files = [] if is_built_in(case) else [case["grammar"].encode("latin-1")]
    if kind in ("parses", "counts", "queries"):
        files.append(bytes.fromhex(case["input"]))
    if kind == "certificates":
        files.append(case["cert"].encode("latin-1"))
    return files


def is_built_in(case):
    return case["grammar"].startswith("@")


def due_of(kind, case):
    """The status, and the text."""
    return (0, case["counts"]) if kind == "counts" else (case.get("status", 0), case["says"])


def run(command, files, words):
    with tempfile.TemporaryDirectory() as folder:
        names = []
        for number, content in enumerate(files):
            names.append(os.path.join(folder, str(number)))
            with open(names[-1], "wb") as file:
                file.write(content)
        done = subprocess.run(command + names + words, capture_output=True, timeout=120)
    return done.returncode, done.stdout.decode("latin-1")


def text_of(text):
    """A text, of pieces where it is a list."""
    pieces = text if isinstance(text, list) else [text]
    return "".join(piece[0] * piece[1] if isinstance(piece, list) else piece for piece in pieces)


def run_words(command, case):
    """What each run of a case says that is compared."""
    answers = []
    with tempfile.TemporaryDirectory() as folder:
        for name, text in case["files"].items():
            with open(os.path.join(folder, name), "wb") as file:
                file.write(text_of(text).encode("latin-1"))
        for words in case["runs"]:
            kept = words[-1] if ">" in words else None
            done = subprocess.run(command + words[: -2 if kept else None], capture_output=True, timeout=120, cwd=folder)
            if kept:
                with open(os.path.join(folder, kept), "wb") as file:
                    file.write(done.stdout)
            else:
                answers.append((words, (done.returncode, done.stdout.decode("latin-1"))))
    return answers


def holds(lines, at, values):
    """Whether the member that begins at a line holds, and the line behind it."""
    depth = len(lines[at]) - len(lines[at].lstrip())
    word = lines[at].strip()
    if word not in ("all", "any"):
        terms = [part.split("*v") for part in word[: -len(" <= 0")].split(" + ")]
        return sum(int(t[0]) * (values[int(t[1])] if len(t) == 2 else 1) for t in terms) <= 0, at + 1
    members, at = [], at + 1
    while at < len(lines) and lines[at].startswith(" " * (depth + 1)):
        one, at = holds(lines, at, values)
        members.append(one)
    return (all if word == "all" else any)(members), at


def unsolved(case):
    """The edges whose conditions don't hold at the values that the case has for them, or not within their bounds."""
    wrong = []
    for edge, values in case["solved"].items():
        lines = case["says"].split("\n")
        begins = next(n for n, line in enumerate(lines) if line.startswith(edge + " "))
        so, at = holds(lines, begins + 1, values)
        bounds = [line.split(" ") for line in lines[at : at + len(values)]]
        if not so or any(not int(low) <= value <= int(high) for value, (_, _, low, _, high) in zip(values, bounds)):
            wrong.append(edge)
    return wrong


def differences(kind, command, case):
    """The runs of a case that say something else than is due."""
    if kind == "texts":
        due = (case.get("status", 0), text_of(case["says"]))
        answers = run_words([os.path.abspath(command[0])] + command[1:], case)
    else:
        due = due_of(kind, case)
        grammar = [case["grammar"]] if is_built_in(case) else []
        path = [case["path"]] if kind == "queries" else []
        answers = [(case["grammar"], run(command + grammar, files_of(kind, case), path))]
    if kind == "earlier" and unsolved(case):
        return [f"{case['grammar']}\n  no solution of edges {unsolved(case)}"]
    return [f"{words}\n  got {got!r:.400}\n  due {due!r:.400}" for words, got in answers if got != due]


def main():
    kind, command = sys.argv[1], sys.argv[2:]
    with open(os.path.join(HERE, "vectors", FILES.get(kind, kind) + ".json")) as file:
        cases = json.load(file)
    differing = 0
    for case in cases:
        for difference in differences(kind, command, case):
            differing += 1
            print(f"{kind}: {difference}")
    print(f"{kind}: {len(cases)} cases, {differing} differ")
    return 1 if differing else 0


if __name__ == "__main__":
    sys.exit(main())
