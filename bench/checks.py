"""`check` of random grammars whose calls go anywhere, by two programs in turns: the greatest ratio of their times, and that of the sums.

  checks.py NEW OLD [COUNT [SEED]]

COUNT grammars (1,000), the least of five runs each. A grammar for which the old program takes less than 5 ms is in the sums alone.
"""

import os
import random
import subprocess
import sys
import tempfile
import time

sys.path.insert(0, os.path.join(os.path.dirname(os.path.abspath(__file__)), "..", ".ci"))

from random_grammars import Maker, Writer  # noqa: E402

RUNS = 5
SHORT = 5  # milliseconds


def text_of(rng):
    """A grammar's text, as the check of random grammars makes them."""
    return Writer(rng).grammar(Maker(rng, anywhere=True).grammar())


def timed(program, path):
    begun = time.monotonic()
    done = subprocess.run([program, "check", path], stdin=subprocess.DEVNULL, capture_output=True, timeout=600)
    return (time.monotonic() - begun) * 1000, (done.returncode, done.stdout)


def main(new, old, count=1000, seed=1):
    rng, worst, sums, differ = random.Random(seed), (0, ""), [0.0, 0.0], 0
    with tempfile.TemporaryDirectory() as folder:
        path = os.path.join(folder, "g.ipg")
        for _ in range(count):
            with open(path, "w", encoding="utf-8") as file:
                file.write(text_of(rng))
            least, said = [1e9, 1e9], [None, None]
            for _ in range(RUNS):
                for at, program in enumerate((new, old)):
                    took, said[at] = timed(program, path)
                    least[at] = min(least[at], took)
            differ += said[0] != said[1]
            sums = [sums[0] + least[0], sums[1] + least[1]]
            if least[1] >= SHORT:
                worst = max(worst, (least[0] / least[1], f"{least[0]:.1f} ms beside {least[1]:.1f} ms"))
    print(f"checks: {count} grammars, {differ} answers differ; all {sums[0] / sums[1]:.2f} times, at most {worst[0]:.2f} times: {worst[1]}")


main(sys.argv[1], sys.argv[2], *map(int, sys.argv[3:]))
