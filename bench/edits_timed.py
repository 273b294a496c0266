"""What an edit and its answer take beside a parse, for a byte at the front, in the middle and at the end of a file, and the memory of many.

  edits_timed.py COMMAND FOLDER GRAMMAR FILE

The time is that of a script of so many edits less that of a script of one, the least of five rounds in turns, by the number of edits.
"""

import os
import subprocess
import sys
import time


def timed(words):
    """Milliseconds and MiB."""
    begun = time.monotonic()
    child = subprocess.Popen(words, stdout=subprocess.DEVNULL)
    _, status, usage = os.wait4(child.pid, 0)
    if status:
        sys.exit(f"{words}: status {os.waitstatus_to_exitcode(status)}")
    return (time.monotonic() - begun) * 1000, usage.ru_maxrss / 1024


def script(folder, content, place, count):
    """A file of edits that put the same byte there again."""
    path = os.path.join(folder, f"script{count}")
    with open(path, "w", encoding="utf-8") as file:
        file.write(f"{place} {place + 1} {content[place]:02x}\n" * count)
    return path


def main():
    command, folder, grammar, path = sys.argv[1:]
    with open(path, "rb") as file:
        content = file.read()
    many = 41 if len(content) > 500_000 else 101
    for name, place in (("front", 0), ("middle", len(content) // 2), ("end", len(content) - 1)):
        one, more = (script(folder, content, place, count) for count in (1, many))
        runs = {"parse": ["parse", grammar, path], "one": ["edit", grammar, path, one], "many": ["edit", grammar, path, more]}
        least = {}
        for _ in range(5):
            for key, words in runs.items():
                took, peak = timed([command, *words])
                least[key] = min(least.get(key, (took, peak)), (took, peak))
        edit = (least["many"][0] - least["one"][0]) / (many - 1)
        print(f"an edit at the {name} of {os.path.basename(path)}, {len(content)} bytes: {edit:.2f} ms, parse {least['parse'][0]:.1f} ms,"
              f" {edit / least['parse'][0]:.3f} times; {many} edits {least['many'][1]:.0f} MiB, one {least['one'][1]:.0f} MiB")


main()
