"""What checks cost, by crate: samples the prover's processes while the gate runs, and prints minutes of a processor.

  cost.py FOLDER [SECONDS]

FOLDER is the checkout that the gate runs in; its checks and those of its edits are counted until it ends, or for so many
seconds. A process that lives for less than a sample (two seconds) is missed.
"""

import collections
import os
import sys
import time

TICKS = os.sysconf("SC_CLK_TCK")


def read(path):
    try:
        with open(path, "rb") as file:
            return file.read()
    except OSError:
        return b""


def parent_of(pid):
    fields = read(f"/proc/{pid}/stat").rsplit(b")", 1)[-1].split()
    return int(fields[1]) if fields else 0


def processes():
    """Each process of the prover: its number, its words, its folder and its seconds so far."""
    for pid in filter(str.isdigit, os.listdir("/proc")):
        words = read(f"/proc/{pid}/cmdline").split(b"\0")
        if not words[0].endswith(b"/rattle") or b"--crate-name" not in words:
            continue
        fields = read(f"/proc/{pid}/stat").rsplit(b")", 1)[-1].split()
        try:
            folder = os.readlink(f"/proc/{pid}/cwd")
        except OSError:
            continue
        if fields:
            yield int(pid), words, folder, (int(fields[11]) + int(fields[12])) / TICKS


def gates(folder):
    """The processes that run `rt ci` in the folder."""
    for pid in filter(str.isdigit, os.listdir("/proc")):
        words = read(f"/proc/{pid}/cmdline").split(b"\0")
        if b"ci" in words and any(word.endswith(b"/rt") for word in words):
            try:
                if os.path.realpath(os.readlink(f"/proc/{pid}/cwd")) == folder:
                    yield int(pid)
            except OSError:
                pass


def belongs(pid, tops):
    while pid > 1:
        if pid in tops:
            return True
        pid = parent_of(pid)
    return False


def main():
    folder, until = os.path.realpath(sys.argv[1]), time.time() + float(sys.argv[2]) if len(sys.argv) > 2 else float("inf")
    seconds = {}
    while time.time() < until and (tops := set(gates(folder))):
        for pid, words, where, spent in processes():
            if belongs(pid, tops):
                crate = words[words.index(b"--crate-name") + 1].decode()
                kind = "edits" if "/rt-edit-" in where else "tests" if b"--test" in words else "proof"
                seconds[pid, crate, kind] = spent
        time.sleep(2)
    table = collections.defaultdict(lambda: dict.fromkeys(("proof", "tests", "edits"), 0.0))
    for (_, crate, kind), spent in seconds.items():
        table[crate][kind] += spent / 60
    for crate, row in sorted(table.items(), key=lambda item: -sum(item[1].values())):
        print("%-26s proof %5.1f tests %5.1f edits %5.1f" % (crate, row["proof"], row["tests"], row["edits"]))
    print("%-26s proof %5.1f tests %5.1f edits %5.1f" % (("all",) + tuple(sum(r[k] for r in table.values()) for k in ("proof", "tests", "edits"))))


if __name__ == "__main__":
    main()
