"""Rows worked by hand, and cases made by independent implementations: words, a grammar, an input, and what the program answers.

  rows.py COMMAND..

A row has a name, the words, a status and what is known of the text: all of it (`stdout`, `stdout_hex`), its first line (`head`), its last
lines (`tail`), one line by its number (`line`), or how many there are (`count`). `files` are further files in hexadecimal,
`input_zeros` an input of so many zeros, `grammar_parts` a grammar of texts so often repeated, `path_parts` a path of such, the
last of the words. With `prefixes` each prefix of
the input is parsed, and those named have a tree. With `chain` the text is the file `out.bin` of a second run.
Ends with status 1 where a row differs.
"""

import json
import os
import subprocess
import sys
import tempfile
from concurrent.futures import ThreadPoolExecutor

HERE = os.path.dirname(os.path.abspath(__file__))
# what each file of rows is
ROWS = {
    "rows": "rows worked by hand",
    "loads": "table files and inputs of independent implementations",
    "symbols": "table files of independent implementations whose references have any symbols",
    "covers": "grammars of independent implementations",
    "rebuilds": "grammars and inputs of independent implementations",
    "edits": "grammars, inputs and scripts of independent implementations",
}


def call(command, words, folder):
    done = subprocess.run(command + words, cwd=folder, stdin=subprocess.DEVNULL, capture_output=True, timeout=120)
    return done.returncode, done.stdout


def files_of(row):
    """The names of the row's files, and what stands in them."""
    files = {name: bytes.fromhex(content) for name, content in row.get("files", {}).items()}
    parts = row.get("grammar_parts", [[row["grammar"], 1]] if "grammar" in row else None)
    if parts is not None:
        files["g.ipg"] = joined(parts).encode("latin-1")
    if "input" in row:
        files["input.bin"] = bytes.fromhex(row["input"])
    return files


def joined(parts):
    return "".join(text * times for text, times in parts)


def text_differs(row, text):
    """What of the text is not as the row has it, or None."""
    if "stdout" in row and text != row["stdout"].encode("latin-1"):
        return "the text"
    if "stdout_hex" in row and text != bytes.fromhex(row["stdout_hex"]):
        return "the text"
    lines = text.decode("latin-1").split("\n")
    known = {"head": lines[0], "count": len(lines) - 1}
    if "tail" in row:
        known["tail"] = lines[-1 - len(row["tail"]):-1]
    if "line" in row:
        number = row["line"][0]
        known["line"] = [number, lines[number - 1] if number <= len(lines) else None]
    return next((what for what, got in known.items() if what in row and row[what] != got), None)


def prefix_differs(command, row, folder):
    data = bytes.fromhex(row["input"])
    for length in range(len(data) + 1):
        with open(os.path.join(folder, "input.bin"), "wb") as file:
            file.write(data[:length])
        status, text = call(command, row["words"], folder)
        is_tree = length in row["prefixes"]
        if status != (0 if is_tree else 1) or (not is_tree and text != b"no parse\n"):
            return f"status {status} of the first {length} bytes"
    return None


def differs(command, row):
    """What is not as the row has it, or None."""
    with tempfile.TemporaryDirectory() as folder:
        for name, content in files_of(row).items():
            with open(os.path.join(folder, name), "wb") as file:
                file.write(content)
        if "input_zeros" in row:
            with open(os.path.join(folder, "input.bin"), "wb") as file:
                file.truncate(row["input_zeros"])
        if "prefixes" in row:
            return prefix_differs(command, row, folder)
        path = [joined(row["path_parts"])] if "path_parts" in row else []
        status, text = call(command, row["words"] + path, folder)
        what = f"status {status}" if status != row["status"] else text_differs(row, text)
        if what is None and "chain" in row:
            with open(os.path.join(folder, "out.bin"), "wb") as file:
                file.write(text)
            if call(command, row["chain"], folder) != (0, row["chain_stdout"].encode()):
                what = "the second run"
        return what and f"{what}: {text[:300]!r}"


def differ(command, rows, kind, what):
    """Tells which rows of a file differ, and gives 1 where one does."""
    with ThreadPoolExecutor(2) as pool:
        found = list(pool.map(lambda row: differs(command, row), rows))
    differing = [(row["name"], why) for row, why in zip(rows, found) if why is not None]
    for name, why in differing:
        print(f"{kind}: {name}: {why}")
    print(f"{kind}: {len(rows)} {what}, {len(differing)} differ")
    return 1 if differing else 0


def main():
    command = [os.path.abspath(sys.argv[1])] + sys.argv[2:]
    failed = 0
    for name, what in ROWS.items():
        with open(os.path.join(HERE, "vectors", name + ".json")) as file:
            failed |= differ(command, json.load(file), name, what)
    return failed


if __name__ == "__main__":
    sys.exit(main())
