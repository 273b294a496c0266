"""Files whose places are chosen by the numbers with which the memo mixes keys, so that its entries pile up under few heads: the time of
`parse` with the memo and without, and of the same on as many calls whose places are not chosen.

  collide.py [KIND [COUNT [SHARE]]]

KIND is gif (blocks of a comment), elf (sections that overlap, 65,535 at most), capture (frames of chosen lengths), own (a grammar that
calls a rule on intervals which the file gives) or all. The calls' keys take one in SHARE of the heads. IPG may name another program
than ./ipg. Beside each: how many rows a look passes, by `region/looks.rs`.
"""

import itertools
import os
import struct
import subprocess
import sys
import tempfile

OF_FROM, OF_TO, OF_RULE = 11400714819323198485, 14686920831342365939, 14029467366897019727  # crates/ipg_memo/src/places.rt
OWN = """S -> U32LE {n = U32LE.val} for i = 0 to n do P[4 + 8 * i, 12 + 8 * i] for i = 0 to n do A[P(i).low, P(i).high]
  where { P -> From[0, 4] To[4, 8] {low = From.val} {high = To.val} ;
    From -> U32LE {val = U32LE.val} ;
    To -> U32LE {val = U32LE.val} ; } ;
A -> "" ;
"""


def mixed(rule, start, end):
    """What a key's numbers are mixed to. Its upper half says how far among the lines of heads the key begins."""
    return (start // 8 * OF_FROM + end // 8 * OF_TO + rule * OF_RULE) % 2**64


def is_near(rule, start, end, share):
    return mixed(rule, start, end) < 2**64 // share


def sizes(rule, begin, gap, count, most, share, end=None):
    """How long each of so many items is that lie one behind another with a gap between them, so that its key has one of the first
    heads: where the next one begins if all reach the end, else where it ends itself."""
    at = begin
    for _ in range(count):
        size = 2
        while size < most and not (is_near(rule, at + size + gap, end, share) if end else is_near(rule, at, at + size, share)):
            size += 1
        at += size + gap
        yield size


def pairs(rule, count, length, share, step=64):
    """So many intervals whose keys have one of the first heads, and whose places are multiples of 8 times `step`."""
    turn, all_of, window = step * OF_TO % 2**64, length // 8 // step, 2**64 // share
    up = next(j for j in range(1, all_of) if j * turn % 2**64 < window)
    down = next(j for j in range(1, all_of) if -j * turn % 2**64 < window)
    rise, fall = up * turn % 2**64, -down * turn % 2**64
    start = 0
    while count:
        at = mixed(rule, start, 0)
        j = next((j for j in range(all_of) if (at + j * turn) % 2**64 < window), all_of)
        at = (at + j * turn) % 2**64
        while j < all_of and count:
            if j * 8 * step >= start:
                yield start, j * 8 * step
                count -= 1
            if at + rise < window and (up < down or at < fall):
                j, at = j + up, at + rise
            elif at >= fall:
                j, at = j + down, at - fall
            else:
                j, at = j + up + down, at + rise - fall
        start += 8 * step


def random_pairs(count, length):
    state = 1
    for _ in range(count):
        state = (state * 6364136223846793005 + 1442695040888963407) % 2**64
        places = (state >> 20) % length // 8 * 8, (state >> 36) % length // 8 * 8
        yield min(places), max(places)


def gif(count, share):
    head = b"GIF89a" + b"\x01\0\x01\0\0\0\0" + b"!\xfe"
    length = len(head) + (2 * share + 4) * count + 4096

    def made(taken):
        places = list(itertools.accumulate(taken, initial=len(head)))
        blocks = head + b"".join(bytes([size - 1]) + bytes(size - 1) for size in taken) + b"\0;"
        return blocks + bytes(length - len(blocks)), [(9, place, length) for place in places[:-1]]

    return made(list(sizes(9, len(head), 0, count, 255, share, length))), made([4] * count)


def elf(count, share):
    length = 1 << 24
    head = b"\x7fELF\x02\x01\x01\0" + bytes(8) + struct.pack("<HHIQQQIHHHHHH", 1, 62, 1, 0, 0, 64, 0, 64, 0, 0, 64, count, 0)

    def made(intervals):
        sections = (struct.pack("<IIQQQQIIQQ", 0, 1, 0, 0, start, end - start, 0, 0, 0, 0) for start, end in intervals)
        told = head + b"".join(sections)
        return told + bytes(length - len(told)), [(10, start, end) for start, end in intervals]

    return made(list(pairs(10, count, length, share, 16))), made(list(random_pairs(count, length)))


def capture(count, share):
    head = struct.pack("<IHHIIII", 0xA1B2C3D4, 2, 4, 0, 0, 65535, 1)
    length = len(head) + (8 * share + 24) * count + 4096

    def made(taken):
        places = list(itertools.accumulate((size + 16 for size in taken), initial=len(head) + 16))
        told = head + b"".join(struct.pack("<IIII", 0, 0, size, size) + bytes(size) for size in taken)
        return told + bytes(length - len(told)), [(8, place, place + size) for place, size in zip(places, taken)]

    return made(list(sizes(8, len(head) + 16, 16, count, 8 * share, share))), made([4 * share] * count)


def own(count, share):
    length = 1 << 27

    def made(intervals):
        told = struct.pack("<I", count) + b"".join(struct.pack("<II", *one) for one in intervals)
        return told + bytes(length - len(told)), [(2, start, end) for start, end in intervals]

    return made(list(pairs(2, count, length, share))), made(list(random_pairs(count, length)))


KINDS = {"gif": (gif, 147000, 4), "elf": (elf, 65535, 1024), "capture": (capture, 50000, 8), "own": (own, 500000, 1024)}


def timed(grammar, data, memo):
    """Seconds of a processor: on a busy machine they say more than the clock."""
    with tempfile.NamedTemporaryFile() as file, tempfile.NamedTemporaryFile(suffix=".ipg") as text:
        file.write(data)
        file.flush()
        text.write(OWN.encode())
        text.flush()
        words = [os.environ.get("IPG", "./ipg"), "parse", grammar or text.name, file.name, "--memo", memo, "--arena", "2048"]
        run = subprocess.Popen(words, stdout=subprocess.DEVNULL)
        _, status, used = os.wait4(run.pid, 0)
    if status:
        sys.exit(f"memo {memo}: status {os.waitstatus_to_exitcode(status)}")
    return used.ru_utime + used.ru_stime


def looked(looks, keys):
    lines = "".join(f"{rule} {start} {end}\n" for rule, start, end in keys)
    return subprocess.run([looks], input=lines, capture_output=True, text=True, check=True).stdout.strip()


def compare(looks, kind, count, share):
    make, usual, least = KINDS[kind]
    made = dict(zip(("chosen", "not chosen"), make(count or usual, share or least)))
    for what, (data, keys) in made.items():
        print(f"{kind}, {what}, {len(data)} bytes: {looked(looks, keys)}", flush=True)
    took = {}
    for _ in range(int(os.environ.get("ROUNDS", "3"))):
        for what, (data, _) in made.items():
            for memo in ("on", "off"):
                took.setdefault((what, memo), []).append(timed({"gif": "@gif", "elf": "@elf", "capture": "@pcap"}.get(kind), data, memo))
    least = {case: min(rounds) for case, rounds in took.items()}
    if least:
        told = "; ".join(f"{what}, memo {memo} {seconds:.2f} s" for (what, memo), seconds in least.items())
        print(f"  {told}; {least['chosen', 'on'] / least['not chosen', 'on']:.2f} times", flush=True)


def main():
    kind, count, share = (sys.argv[1:] + ["all", "0", "0"][len(sys.argv) - 1 :])[:3]
    with tempfile.TemporaryDirectory() as work:
        looks = os.path.join(work, "looks")
        subprocess.run(["rustc", "--edition", "2024", "-O", "-o", looks, os.path.join(os.path.dirname(__file__), "region/looks.rs")], check=True)
        for one in KINDS if kind == "all" else [kind]:
            compare(looks, one, int(count), int(share))


main()
