"""Files that were cut or changed: `explain` ends as `parse` does, in no more than 3 times its time and 1.2 times its memory.

  cut_files.py COMMAND SAMPLE [COUNT]

COUNT files (400 if it isn't given): ELF and PE files of this machine, where there are any, and samples that SAMPLE (tool_sample)
makes of each built-in format. Time is that of a processor, of all files of a kind together; memory is the most that a run took.
Ends with status 1 where something differs.
"""

import os
import random
import subprocess
import sys
import tempfile
from collections import namedtuple

sys.path.insert(0, os.path.dirname(os.path.abspath(__file__)))
from real_files import found, spoilt  # noqa: E402

KINDS = ["elf", "gif", "pcap", "pe"]
LARGEST = 300_000

Run = namedtuple("Run", "status seconds room")


def run(command, verb, kind, path):
    """A run's status, its seconds of a processor, and its greatest memory in KiB."""
    child = subprocess.Popen([command, verb, "@" + kind, path], stdout=subprocess.DEVNULL, stderr=subprocess.DEVNULL)
    _, status, used = os.wait4(child.pid, 0)
    return Run(os.waitstatus_to_exitcode(status), used.ru_utime + used.ru_stime, used.ru_maxrss)


def contents(sample, kind):
    """What the files of a kind hold."""
    made = [subprocess.run([sample, kind, str(n)], capture_output=True, check=True).stdout for n in (1, 3, 40)]
    paths = found(kind)[:200] if kind in ("elf", "pe") else []
    read = []
    for path in paths:
        if os.path.getsize(path) <= LARGEST:
            with open(path, "rb") as file:
                read.append(file.read())
    return made + read


def wrong(command, sample, kind, count, rng):
    """Whether something differs, of so many files of a kind."""
    files, bad, seconds = contents(sample, kind), 0, [0.0, 0.0]
    with tempfile.TemporaryDirectory() as folder:
        path = os.path.join(folder, "file")
        for _ in range(count):
            with open(path, "wb") as file:
                file.write(spoilt(rng.choice(files), rng))
            parsed, told = (run(command, verb, kind, path) for verb in ("parse", "explain"))
            seconds[0] += parsed.seconds
            seconds[1] += told.seconds
            if parsed.status != told.status or parsed.status not in (0, 1, 3) or told.room > 1.2 * parsed.room + 1024:
                print(f"cut {kind}: parse {parsed}, explain {told}", file=sys.stderr)
                bad += 1
    ratio = seconds[1] / max(seconds[0], 0.001)
    print(f"explain: {kind}: {count} files cut or changed, {bad} told otherwise than parsed, {ratio:.2f} times the time")
    return bad > 0 or ratio > 3


def main():
    command, sample = sys.argv[1:3]
    count = int(sys.argv[3]) if len(sys.argv) > 3 else 400
    rng = random.Random(1)
    return any([wrong(command, sample, kind, count // len(KINDS), rng) for kind in KINDS])


if __name__ == "__main__":
    sys.exit(main())
