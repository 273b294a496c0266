"""Small grammars that once took gigabytes: seconds and peak memory of `cover` and `rebuild`, beside their goals. Fails where one is missed.

    rooms.py [PROGRAM]
"""

import os
import resource
import subprocess
import sys
import tempfile
from pathlib import Path
from typing import NamedTuple

MIB = 1 << 20
MOST_SECONDS = 60
MOST_MEMORY = 6 << 30


def choice(depth):
    """A choice whose condition is a choice, and so on."""
    return "EOI" if depth == 0 else f"({choice(depth - 1)} ? EOI : 1)"


def chosen(depth):
    """A grammar that tests such a choice."""
    return f"S -> ?({choice(depth)}) Bytes ;"


def thrice(rules):
    """Rules that each call the next three times on their whole part; the last one reads the first byte."""
    calls = [f"A{n} -> A{n + 1}[0, EOI] A{n + 1}[0, EOI] A{n + 1}[0, EOI] ;" for n in range(rules)]
    return "\n".join([*calls, f"A{rules} -> U8[0, 1] ;"])


class Case(NamedTuple):
    what: str
    command: str
    grammar: str
    statuses: tuple
    seconds: float
    memory: int


CASES = [
    *(Case(f"`cover`, a choice nested {n}", "cover", chosen(n), (7,), 0.1, 50 * MIB) for n in (20, 24)),
    *(Case(f"`rebuild`, {n} rules that call three times", "rebuild", thrice(n), (2, 7), 2, 600 * MIB) for n in (16, 20)),
]


def limited():
    resource.setrlimit(resource.RLIMIT_CPU, (MOST_SECONDS, MOST_SECONDS))
    resource.setrlimit(resource.RLIMIT_AS, (MOST_MEMORY, MOST_MEMORY))


def measured(command):
    """The status of a command, the seconds of a processor that it took, and its peak memory in bytes."""
    child = subprocess.Popen(command, stdout=subprocess.DEVNULL, preexec_fn=limited)
    _, status, usage = os.wait4(child.pid, 0)
    return os.waitstatus_to_exitcode(status), usage.ru_utime + usage.ru_stime, usage.ru_maxrss * 1024


def main(program="./ipg"):
    missed = 0
    print("| run | bytes of grammar | status | time | memory | goal | |\n|---|---|---|---|---|---|---|")
    with tempfile.TemporaryDirectory() as folder:
        grammar, file = Path(folder, "g.ipg"), Path(folder, "file")
        file.write_bytes(b"abcd")
        for case in CASES:
            grammar.write_text(case.grammar + "\n")
            files = [str(grammar)] + ([str(file)] if case.command == "rebuild" else [])
            status, seconds, memory = measured([program, case.command, *files])
            is_met = status in case.statuses and seconds <= case.seconds and memory <= case.memory
            missed += not is_met
            goal = f"{case.seconds} s, {case.memory // MIB} MB"
            row = [case.what, len(case.grammar), status, f"{seconds:.2f} s", f"{memory / MIB:.0f} MB", goal, "met" if is_met else "missed"]
            print("| " + " | ".join(map(str, row)) + " |")
    return 1 if missed else 0


if __name__ == "__main__":
    sys.exit(main(*sys.argv[1:]))
