"""Which functions are dear to prove: seconds by function, from what `rt check` kept of each module, and when.

  dear.py CRATE..

A check keeps a file for each module of a crate as it is done with it. The time from one file to the next is what the later
module took, summed here by the function that it belongs to. It is right for a check from nothing by one job on a quiet
machine (`rm -rf crates/NAME/out`, then `rt check --jobs 1` in its folder); with more jobs it tells less than there was.
"""

import collections
import os
import re
import sys

PART = re.compile(r"\.(?:[A-Z][A-Za-z]*[-0-9]*$|[A-Z][A-Za-z]*-|Code|Goals|Given)")
SHOWN = 12


def modules(name):
    """When each module of the crate was kept, in order."""
    kept = f"crates/{name}/out/incremental"
    for room in os.listdir(kept) if os.path.isdir(kept) else []:
        for file in os.scandir(f"{kept}/{room}"):
            if file.name.startswith(f"Rattle-{name}-"):
                yield file.stat().st_mtime, file.name[len(f"Rattle-{name}-") : -len(".oantt")]


def seconds(name):
    """The seconds of each function."""
    took = collections.Counter()
    times = sorted(modules(name))
    for (before, _), (after, module) in zip(times, times[1:]):
        took[PART.split(module)[0]] += after - before
    return took


def main():
    os.chdir(os.path.join(os.path.dirname(os.path.abspath(__file__)), ".."))
    for name in sys.argv[1:]:
        took = seconds(name)
        print(f"{name}: {sum(took.values()):.0f} s")
        for function, time in took.most_common(SHOWN):
            print(f"  {time:6.1f} s  {function}")


if __name__ == "__main__":
    main()
