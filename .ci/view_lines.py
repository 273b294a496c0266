"""What `view` writes, against the same lines made by another program: of the tree that `json` writes and of the file, by docs/VIEW.md.

  view_lines.py COMMAND [COUNT [SEED]]

Taken are the samples of formats/, COUNT random grammars with inputs (300 if it isn't given), real files of the built-in grammars,
and rows by hand. Each tree is also viewed by some paths, of names that it has. Where the first gap begins, `rebuild` says so; where
there is none, it gives the file. Where there is no tree, `view` says what `parse` says, and of what is no path what `query` says. Ends
with status 1 where something differs.
"""

import itertools
import json
import os
import random
import sys
import tempfile

sys.dont_write_bytecode = True
from json_trees import cases, run  # noqa: E402

ROOM, LEVELS, SHOWN = 54, 12, 48

# A tree with more nodes and leaves than this is not viewed by `**`, which shows each once for each node around it.
MOST_OF_ALL = 300

# A name, a grammar, a file, and the lines that are due, worked by hand.
ROWS = [
    ("a note", 'Note -> "N" U8 {size = U8.val} Bytes[size] many Tag ;\nTag -> U16BE {id = U16BE.val} ;\n', b"N\2hi\1\2", [
        "00000000" + " " * 70 + "Note 0..6 size=2",
        "00000000  4e" + " " * 46 + "|N               |    tok",
        "00000001  02" + " " * 46 + "|.               |    U8 2",
        "00000002  68 69" + " " * 43 + "|hi              |    Bytes 2",
        " " * 80 + "many Tag x 1",
        "00000004" + " " * 74 + "Tag 4..6 id=258",
        "00000004  01 02" + " " * 43 + "|..              |        U16BE 258"]),
    ("gaps, and a leaf over another", "Top -> Bytes[2, 5] Bytes[3, 6] U8[8, 9] ;\n", bytes(range(11)), [
        "00000000" + " " * 70 + "Top 0..11",
        "00000002  02 03 04" + " " * 40 + "|...             |    Bytes 3",
        "00000003  03 04 05" + " " * 40 + "|...             |    Bytes 3",
        "00000008  08" + " " * 46 + "|.               |    U8 8",
        "00000000  00 01" + " " * 43 + "|..              |    gap 0..2",
        "00000006  06 07" + " " * 43 + "|..              |    gap 6..8",
        "00000009  09 0a" + " " * 43 + "|..              |    gap 9..11"]),
    ("a string in a longer interval", 'S -> "ab"[0, EOI] ;\n', b"abcdefgh", [
        "00000000" + " " * 70 + "S 0..8",
        "00000000  61 62" + " " * 43 + "|ab              |    tok",
        "00000002  63 64 65 66 67 68" + " " * 31 + "|cdefgh          |    gap 2..8"]),
    ("a number in a longer interval", "S -> U16LE[1, EOI] ;\n", bytes(range(5)), [
        "00000000" + " " * 70 + "S 0..5",
        "00000001  01 02" + " " * 43 + "|..              |    U16LE 513",
        "00000000  00" + " " * 46 + "|.               |    gap 0..1",
        "00000003  03 04" + " " * 43 + "|..              |    gap 3..5"]),
    ("bytes that go on", "Top -> Bytes ;\n", b"\x1b[31m" + bytes(range(0x70, 0xa0)), [
        "00000000" + " " * 70 + "Top 0..53",
        "00000000  1b 5b 33 31 6d 70 71 72 73 74 75 76 77 78 79 7a |.[31mpqrstuvwxyz|    Bytes 53",
        "00000010  7b 7c 7d 7e 7f 80 81 82 83 84 85 86 87 88 89 8a |{|}~............|",
        "00000020  8b 8c 8d 8e 8f 90 91 92 93 94 95 96 97 98 99 9a |................|",
        "00000030" + " " * 74 + "5 more"]),
    ("nothing, and a name that is cut", "Top -> A%s[0, 0] ;\nA%s -> Bytes ;\n" % (("b" * 60,) * 2), b"", [
        "00000000" + " " * 70 + "Top 0..0",
        "00000000" + " " * 72 + "A" + "b" * 49 + "..",
        "00000000" + " " * 74 + "Bytes 0"]),
]

SHELF = "Shelf -> U8 {count = U8.val} for i = 0 to count do Book[1 + 4 * i, 5 + 4 * i] Rest[1 + 4 * count, EOI] ;\n" \
    "Book -> U16LE {pages = U16LE.val} Bytes[2, 4] ;\nRest -> Bytes ;\n"
BOOKS = b"\2\x2c\1ab\x10\0cd!"

# A path of that grammar and that file, and the lines that are due, worked by hand.
PICKED = [
    ("Book(1)", [
        "00000005" + " " * 70 + "Book 5..9 pages=16",
        "00000005  10 00" + " " * 43 + "|..              |    U16LE 16",
        "00000007  63 64" + " " * 43 + "|cd              |    Bytes 2"]),
    ("**/Bytes", [
        "00000003  61 62" + " " * 43 + "|ab              |  Bytes 2",
        "00000007  63 64" + " " * 43 + "|cd              |  Bytes 2",
        "00000009  21" + " " * 46 + "|!               |  Bytes 1"]),
    ("Book.pages", [
        "00000001" + " " * 70 + "pages=300",
        "00000005" + " " * 70 + "pages=16"]),
    ("Book/Bytes.end", [
        "00000003" + " " * 70 + "end=5",
        "00000007" + " " * 70 + "end=9"]),
    ("Book.colour", []),
    ("Rest/**", [
        "00000009" + " " * 70 + "Rest 9..10",
        "00000009  21" + " " * 46 + "|!               |    Bytes 1",
        "00000009  21" + " " * 46 + "|!               |  Bytes 1"]),
]


def indented(depth, text):
    return "  " * min(depth, LEVELS) + text


def cut(text):
    return text if len(text) <= ROOM else text[:ROOM - 2] + ".."


def shown(piece):
    return "".join(chr(byte) if 0x20 <= byte <= 0x7e else "." for byte in piece)


def columns(piece):
    return f"{piece.hex(' '):48}|{shown(piece):16}|" if piece else " " * 66


def piece_lines(data, depth, start, end, text):
    """Up to three lines of bytes, the first with what they are, and how many follow."""
    piece = data[start:end]
    lines = [f"{start:08x}  {columns(piece[:16])}  {cut(indented(depth, text))}"]
    lines += [f"{start + at:08x}  {columns(piece[at:at + 16])}" for at in (16, 32) if piece[at:at + 16]]
    if len(piece) > SHOWN:
        lines.append(f"{start + SHOWN:08x}" + " " * 70 + cut(indented(depth + 1, f"{len(piece) - SHOWN} more")))
    return lines


def size_of(one):
    """How many bytes a leaf has: a string those of its text, a number those of its width, raw bytes all of their interval."""
    if one["prim"] == "Bytes":
        return one["to"] - one["from"]
    return len(one["hex"]) // 2 if one["prim"] == "tok" else int(one["prim"][1:].rstrip("BEL")) // 8


def object_lines(one, depth, data):
    if "rule" in one:
        words = [one["rule"], f"{one['from']}..{one['to']}"] + [f"{name}={value}" for name, value in one["attrs"].items()]
        return [f"{one['from']:08x}" + " " * 70 + cut(indented(depth, " ".join(words)))]
    if "items" in one:
        kind = "for" if "for" in one else "many"
        return [" " * 78 + cut(indented(depth, f"{kind} {one[kind]} x {len(one['items'])}"))]
    if one["prim"] == "tok":
        text = "tok"
    elif one["prim"] == "Bytes":
        text = f"Bytes {one['to'] - one['from']}"
    else:
        text = f"{one['prim']} {one['val'] if 'val' in one else (one['hi'] << 32) + one['lo']}"
    return piece_lines(data, depth, one["from"], one["from"] + size_of(one), text)


def gaps(had):
    """The ends of each run of bytes that no leaf has."""
    ends, start = [], None
    for at, is_had in enumerate([*had, True]):
        if is_had and start is not None:
            ends.append((start, at))
        start = None if is_had else at if start is None else start
    return ends


def inner(one):
    return one.get("kids", one.get("items", []))


def below_lines(one, data):
    """The lines of an object and of all that lies in it."""
    lines, left = [], [(one, 0)]
    while left:
        one, depth = left.pop()
        lines += object_lines(one, depth, data)
        left += [(kid, depth + 1) for kid in reversed(inner(one))]
    return lines


def gaps_of(tree, data):
    left, had = [tree], bytearray(len(data))
    while left:
        one = left.pop()
        if "prim" in one:
            had[one["from"]:one["from"] + size_of(one)] = b"\1" * size_of(one)
        left += inner(one)
    return gaps(had)


def lines_of(tree, data):
    lines = below_lines(tree, data)
    for start, end in gaps_of(tree, data):
        lines += piece_lines(data, 1, start, end, f"gap {start}..{end}")
    return lines


# ---- paths, by docs/QUERY.md


def children(one):
    return [kid for child in one.get("kids", []) for kid in child.get("items", [child])]


def all_in(one):
    """An object and all that lies in it, each before what lies in that; no array and no repetition."""
    found, left = [], [one]
    while left:
        one = left.pop()
        found += [] if "items" in one else [one]
        left += reversed(inner(one))
    return found


def name_of(one):
    return one.get("rule") or one["prim"]


def taken(one, step):
    if step in ("*", "**"):
        return children(one) if step == "*" else all_in(one)
    name, _, number = step.rstrip(")").partition("(")
    named = [kid for kid in children(one) if name_of(kid) == name]
    return named[int(number):][:1] if number else named


def touched(one):
    """Where an object begins and ends to touch bytes."""
    if "rule" in one:
        return {"start": one["start"], "end": one["end"]}
    if one["prim"] == "Bytes":
        return {"start": one["from"], "end": one["to"]}
    count = size_of(one)
    return {"start": one["from"], "end": one["from"] + count} if count else {"start": one["to"], "end": one["from"]}


def fields(one):
    values = one["attrs"] if "rule" in one else {name: one[name] for name in ("val", "hi", "lo") if name in one}
    return {**values, **touched(one)}


def picked_lines(tree, data, path):
    steps, _, field = path.partition(".")
    found = [tree]
    for step in steps.split("/"):
        found = [inner for one in found for inner in taken(one, step)]
    if not field:
        return [line for one in found for line in below_lines(one, data)]
    return [f"{one['from']:08x}" + " " * 70 + cut(f"{field}={fields(one)[field]}") for one in found if field in fields(one)]


def paths_of(tree, rng):
    """Some paths, of names that the tree has."""
    found = all_in(tree)
    one, other = rng.choice(found), rng.choice(found)
    paths = ["*", f"**/{name_of(one)}", f"{name_of(other)}(0)", f"**/{name_of(one)}.{rng.choice(sorted(fields(one)))}", "**/*.start"]
    return paths + ["**"] if len(found) <= MOST_OF_ALL else paths


def first_other(done, due):
    """What differs of bytes and lines that are due, or None."""
    lines = done.decode("ascii").split("\n")
    if lines.pop():
        return "the last line doesn't end"
    if any(not 0x20 <= byte <= 0x7e for byte in done.replace(b"\n", b"")):
        return "a byte is written that is no character of ASCII"
    if any(len(line) > 132 for line in lines):
        return "a line is longer than 132 columns"
    return next(("%r, where %r is due" % pair for pair in zip(lines, due) if pair[0] != pair[1]),
                None if len(lines) == len(due) else "%d lines, where %d are due" % (len(lines), len(due)))


def why_picked_differs(command, grammar, path, text, due):
    """What differs of what a path picks of a grammar and a file, or None."""
    done = run(command, ["view", grammar, path, text])
    if done.returncode:
        return "%s: status %d, where 0 is due" % (text, done.returncode)
    why = first_other(done.stdout, due)
    return None if why is None else f"{text}: {why}"


def why_rebuilt_differs(command, paths, tree, data):
    """What differs where the leaves are put back, or None: the least byte of the first gap is told, or there is the file."""
    missed = gaps_of(tree, data)
    due = (2, b"refused V4 Gap %d\n" % missed[0][0]) if missed else (0, data)
    done = run(command, ["rebuild", *paths])
    return None if (done.returncode, done.stdout) == due else f"rebuild: {done.stdout[:60]!r} is said, where {due[1][:60]!r} is due"


def why_differs(command, grammar, path, rng):
    """What differs of a grammar and a file, or None."""
    parsed, done = run(command, ["parse", grammar, path]), run(command, ["view", grammar, path])
    if done.returncode != parsed.returncode:
        return "status %d, where %d is due" % (done.returncode, parsed.returncode)
    if parsed.returncode:
        return None if done.stdout == parsed.stdout else "%r is said" % done.stdout[:60]
    tree = json.loads(run(command, ["json", grammar, path]).stdout)
    with open(path, "rb") as file:
        data = file.read()
    whys = [first_other(done.stdout, lines_of(tree, data)), why_rebuilt_differs(command, (grammar, path), tree, data)]
    whys += [why_picked_differs(command, grammar, path, text, picked_lines(tree, data, text)) for text in paths_of(tree, rng)]
    return next((why for why in whys if why is not None), None)


def why_no_path_differs(command):
    """What differs of texts that are no paths, before any file is read; or None."""
    for text in ("", "Book.", "Book(01)", "/Book", "a b"):
        words = ["nosuchgrammar", "nosuchfile", text]
        done, due = run(command, ["view", *words]), run(command, ["query", *words])
        if (done.returncode, done.stdout) != (due.returncode, due.stdout):
            return f"{text!r}: {done.stdout[:60]!r} is said, where {due.stdout[:60]!r} is due"
    return None


def written(folder, grammar, data):
    """The paths of a grammar and a file, once they are written."""
    paths = os.path.join(folder, "g"), os.path.join(folder, "f")
    for path, content in zip(paths, (grammar.encode(), data)):
        with open(path, "wb") as file:
            file.write(content)
    return paths


def by_hand(command, folder, rng):
    """What differs of the rows by hand, with the name of each; None where nothing does."""
    for name, grammar, data, due in ROWS:
        paths = written(folder, grammar, data)
        yield name, first_other(run(command, ["view", *paths]).stdout, due) or why_differs(command, *paths, rng)
    paths = written(folder, SHELF, BOOKS)
    for text, due in PICKED:
        yield "by path", why_picked_differs(command, *paths, text, due)
    yield "no path", why_no_path_differs(command)


def main():
    command = [os.path.abspath(sys.argv[1])]
    count = int(sys.argv[2]) if len(sys.argv) > 2 else 300
    seed = int(sys.argv[3]) if len(sys.argv) > 3 else 1
    sys.setrecursionlimit(10_000)
    rng, failed, tried = random.Random(seed), 0, 0
    with tempfile.TemporaryDirectory() as folder:
        others = ((name, why_differs(command, grammar, path, rng)) for name, grammar, path in cases(folder, count, seed))
        for name, why in itertools.chain(by_hand(command, folder, rng), others):
            tried += 1
            if why is not None:
                failed += 1
                print(f"view: {name}: {why}")
    print(f"view: {tried} trees beside their bytes, seed {seed}: {failed} differ")
    return int(failed > 0)


if __name__ == "__main__":
    sys.exit(main())
