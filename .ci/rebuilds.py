"""Real files by the built-in grammars: `rebuild` gives the file's bytes, or the least place that no leaf of the printed tree has.

  rebuilds.py COMMAND [MOST]

Of each kind at most MOST files are taken (40 if it isn't given). The printed tree tells where its leaves are: a number has the
bytes of its width, a terminal as many as are printed, raw bytes their interval. Ends with status 1 where something differs.
"""

import os
import subprocess
import sys
import tempfile

from random_grammars import WIDTHS
from real_files import captures, found


def run(command, words):
    return subprocess.run(command + words, stdin=subprocess.DEVNULL, capture_output=True, timeout=600)


def leaf_of(line):
    """Where a line's leaf begins and ends, or None."""
    words = line.split(" ")
    if words[1] not in WIDTHS and words[1] not in ("tok", "Bytes"):
        return None
    begins, ends = int(words[2]), int(words[3])
    if words[1] == "Bytes":
        return begins, ends
    if words[1] in WIDTHS:
        return begins, begins + WIDTHS[words[1]]
    shown, _, more = words[4].partition("+")
    return begins, begins + (0 if shown == "-" else len(shown) // 2) + int(more or 0)


def least_missed(text, size):
    """The least place below the size that no leaf has, or None."""
    had = bytearray(size)
    for line in text.splitlines():
        leaf = leaf_of(line)
        if leaf is not None:
            had[leaf[0]:leaf[1]] = b"\1" * (leaf[1] - leaf[0])
    missed = had.find(b"\0")
    return None if missed < 0 else missed


def due_of(command, kind, path):
    """The status of `rebuild`, and what it says."""
    parsed = run(command, ["parse", "@" + kind, path])
    if parsed.returncode:
        return parsed.returncode, parsed.stdout
    with open(path, "rb") as file:
        content = file.read()
    missed = least_missed(parsed.stdout.decode(), len(content))
    return (0, content) if missed is None else (2, b"refused V4 Gap %d\n" % missed)


def differs(command, kind, path):
    done = run(command, ["rebuild", "@" + kind, path])
    due = due_of(command, kind, path)
    if (done.returncode, done.stdout) == due:
        return due[0] == 0, None
    return False, "status %d and %r, where %d and %r are due" % (done.returncode, done.stdout[:60], due[0], due[1][:60])


def compare(command, kind, paths):
    whole = failed = 0
    for path in paths:
        is_whole, why = differs(command, kind, path)
        whole += is_whole
        if why is not None:
            failed += 1
            print(f"rebuilds: {kind}: {path}: {why}")
    print(f"rebuilds: {kind}: {len(paths)} files, {whole} of them put back whole, {failed} differ")
    return failed > 0


def main():
    command, most = [os.path.abspath(sys.argv[1])], int(sys.argv[2]) if len(sys.argv) > 2 else 40
    failed = False
    for kind in ("gif", "pe", "elf"):
        failed |= compare(command, kind, found(kind)[:most])
    with tempfile.TemporaryDirectory() as folder:
        has_tool = subprocess.run(["which", "tcpdump"], capture_output=True).returncode == 0
        failed |= compare(command, "pcap", captures(folder, 5) if has_tool else [])
    return int(failed)


if __name__ == "__main__":
    sys.exit(main())
