"""Two commands that take turns: the least time of 25 runs of each, or of five where a run takes half a second and more, its
peak of memory, and how many times as long the first takes as the second.

  turns.py [--goal TIMES] [--memory-goal TIMES] [--most-ms MS] [--most-mib MIB] [--per-line BYTES] [--any-status] NAME FIRST.. -- SECOND..

The goals are for TIMES, of time and of memory, and for the FIRST's time, its memory, and its memory for each line that it prints, beside the file
that is its fourth word. A goal that is missed is said to be, and ends nothing; a command that doesn't end with status 0 does, but with
--any-status one that ends by itself is timed.
"""

import argparse
import os
import subprocess
import sys
import tempfile
import time

SHORT = 500  # milliseconds


def timed(words, any_status):
    """Milliseconds."""
    begun = time.monotonic()
    done = subprocess.run(words, stdout=subprocess.DEVNULL, stderr=subprocess.DEVNULL)
    took = time.monotonic() - begun
    if done.returncode and not (any_status and done.returncode > 0):
        sys.exit(f"{words}: status {done.returncode}")
    return took * 1000


def peak(words):
    """MiB. A child of this process would be told this process's own, so a smaller program starts it."""
    with tempfile.NamedTemporaryFile("r") as told:
        subprocess.run(["/usr/bin/time", "-f", "%M", "-o", told.name, *words], stdout=subprocess.DEVNULL, stderr=subprocess.DEVNULL)
        return int(told.read().split()[-1]) / 1024


def printed(words):
    """How many lines it prints."""
    run = subprocess.Popen(words, stdout=subprocess.PIPE)
    lines = sum(piece.count(b"\n") for piece in iter(lambda: run.stdout.read(1 << 20), b""))
    run.wait()
    return lines


def held(value, goal, unit):
    """A figure, with its goal where there is one."""
    if goal is None:
        return f"{value:.3g} {unit}" if value < 100 else f"{value:.0f} {unit}"
    return f"{held(value, None, unit)} (goal {goal:g}{'' if value <= goal else ': missed'})"


def parsed():
    reader = argparse.ArgumentParser(usage=__doc__)
    for name in ("--goal", "--memory-goal", "--most-ms", "--most-mib", "--per-line"):
        reader.add_argument(name, type=float)
    reader.add_argument("--any-status", action="store_true")
    reader.add_argument("name")
    reader.add_argument("words", nargs=argparse.REMAINDER)
    return reader.parse_args()


def main():
    asked = parsed()
    at = asked.words.index("--")
    first, second = asked.words[:at], asked.words[at + 1:]
    both = lambda: (timed(first, asked.any_status), timed(second, asked.any_status))
    rounds = [both()]
    rounds += [both() for _ in range(24 if rounds[0][0] < SHORT else 4)]
    ours, theirs = (min(taken) for taken in zip(*rounds))
    most = peak(first)
    row = [asked.name, held(ours, asked.most_ms, "ms"), held(most, asked.most_mib, "MiB")]
    if asked.per_line is not None:
        beside = most * 2**20 - os.path.getsize(first[3])
        row.append(held(beside / printed(first), asked.per_line, "bytes a line"))
    others = peak(second)
    row += [held(theirs, None, "ms"), held(others, None, "MiB"), held(ours / theirs, asked.goal, "times")]
    if asked.memory_goal is not None:
        row.append(held(most / others, asked.memory_goal, "times the memory"))
    print(" | ".join(row), flush=True)


main()
