"""Sessions of edits on samples of the built-in grammars: after each edit the answer is that of a parse of the edited bytes.

  edits.py COMMAND [SEED]

A script of 200 edits is run whole, and each of its first answers again as the last one of a shorter script: its word is that
of a fresh parse, and its tree that parse's lines, byte for byte. Ends with status 1 where something differs.
"""

import os
import random
import struct
import subprocess
import sys
import tempfile

EDITS = 200
WORDS = {0: "tree", 1: "no parse", 3: "range"}


def gif():
    """Three frames of one pixel, with a comment."""
    frame = b"," + struct.pack("<HHHHB", 0, 0, 1, 1, 0) + b"\x02\x02\x44\x01\x00"
    return b"GIF89a" + struct.pack("<HHBBB", 1, 1, 0, 0, 0) + b"!\xfe\x03abc\x00" + 3 * frame + b";"


def pcap():
    """Three packets of raw bytes."""
    packets = [struct.pack("<IIII", second, 0, size, size) + bytes(range(size)) for second, size in enumerate((20, 0, 7))]
    return struct.pack("<IHHiIII", 0xA1B2C3D4, 2, 4, 0, 0, 65535, 1) + b"".join(packets)


def run(command, words):
    return subprocess.run(command + words, stdin=subprocess.DEVNULL, capture_output=True, timeout=600)


def edit_of(rng, size):
    """Places in order within so many bytes, and the bytes that come there: also none, at the ends, and of everything."""
    kind = rng.randrange(8)
    at = rng.choice([0, size, rng.randint(0, size)])
    if kind == 0:
        return at, at, rng.randbytes(rng.randint(1, 5))
    if kind == 1:
        return at, min(size, at + rng.randint(1, 8)), b""
    if kind == 2:
        return at, at, b""
    width = rng.randint(1, 4)
    at = min(at, max(0, size - width))
    return at, min(size, at + width), rng.randbytes(width)


def sessions(rng, content):
    """The script's lines, and the bytes before the first edit and after each."""
    states, lines = [content], []
    for _ in range(EDITS):
        old = states[-1]
        # now and then the bytes come back as they were, so that trees are there to be kept
        if rng.randrange(3) == 0:
            start, end, put = 0, len(old), content
        else:
            start, end, put = edit_of(rng, len(old))
        lines.append(f"{start} {end} {put.hex() or '-'}\n")
        states.append(old[:start] + put + old[end:])
    return lines, states


def due_of(command, kind, path):
    parsed = run(command, ["parse", "@" + kind, path])
    return WORDS[parsed.returncode], parsed.stdout if parsed.returncode == 0 else b""


def differs(command, kind, folder, lines, states):
    names = [os.path.join(folder, name) for name in ("input", "script", "edited")]
    with open(names[0], "wb") as file:
        file.write(states[0])
    with open(names[1], "w", encoding="utf-8") as file:
        file.write("".join(lines))
    with open(names[2], "wb") as file:
        file.write(states[-1])
    done = run(command, ["edit", "@" + kind, names[0], names[1]])
    answers = done.stdout.split(b"\n", len(lines) + 1)
    word, tree = due_of(command, kind, names[2])
    last = answers[len(lines)].decode().split(" bodies=")[0]
    if done.returncode == 0 and last == f"{len(lines)} {word}" and answers[-1] == tree:
        return False
    print(f"edits: {kind}, {len(lines)} edits: status {done.returncode}, {last}; due {word}")
    return True


def main():
    command, seed = sys.argv[1].split(), int(sys.argv[2]) if len(sys.argv) > 2 else 1
    rng, wrong, count = random.Random(seed), 0, 0
    with tempfile.TemporaryDirectory() as folder:
        for kind, sample in (("gif", gif()), ("pcap", pcap())):
            lines, states = sessions(rng, sample)
            for upto in sorted({*range(24), EDITS // 2, EDITS}):
                wrong += differs(command, kind, folder, lines[:upto], states[: upto + 1])
                count += 1
    print(f"edits: {count} sessions of up to {EDITS} edits, seed {seed}: {wrong} differ from parses of the edited bytes")
    return 1 if wrong else 0


sys.exit(main())
