"""`explain` by a second implementation of docs/EXPLAIN.md, whose table has the sentences.

  explains.py COMMAND

Each case is a grammar, the line that refuses it and where: places as strings of the text, found by their number. Beside the
cases below, each grammar of .ci/vectors/texts.json that is refused with a place is explained. Behind them are inputs, worked out by
hand: what each comes to, and for each of the furthest failures the line of why, behind it what was read where no bytes are to blame,
what comes of it, and the calls that led there.
Ends with status 1 where one differs.
"""

import json
import os
import re
import struct
import subprocess
import sys
import tempfile

TOP = os.path.dirname(os.path.dirname(os.path.abspath(__file__)))
NAME = "some dir/g.ipg"


def sentences():
    """The two sentences of each refusal, by its words."""
    with open(os.path.join(TOP, "docs/EXPLAIN.md"), encoding="utf-8") as file:
        rows = re.findall(r"^\| (G\d+ [^|]*?) \| ([^|]*?) \| ([^|]*?) \|$", file.read(), re.M)
    return {words: (wrong, advice) for words, wrong, advice in rows}


SENTENCES = sentences()


def place(text, at, name=NAME):
    """NAME:LINE:COLUMN."""
    before = text[:at]
    return f"{name}:{before.count(10) + 1}:{len(before.split(bytes([10]))[-1]) + 1}"


def spot(text, at, name=NAME):
    """The place, the line, and the mark."""
    head, tail = text[:at].split(b"\n")[-1], text[at:].split(b"\n")[0]
    line = head + tail
    left = max(0, len(head) - 72)
    shown = "".join(chr(b) if 32 <= b <= 126 else " " if b == 9 else "." for b in line[left:left + 100])
    return f"{place(text, at, name)}\n  {shown}\n  {' ' * (len(head) - left)}^\n"


def word_at(text, at):
    found = re.match(rb"[A-Za-z0-9_]+", text[at:])
    if found:
        return found[0][:64].decode()
    byte = text[at:at + 1]
    return "".join(chr(b) if 32 <= b <= 126 else " " if b == 9 else "." for b in byte)


def noted(refusal, values):
    """On what length the calls of a cycle can go round, and a line for each call that has values."""
    length = re.search(r" EOI=(\d+)", refusal)
    if not length:
        return ""
    return f"They can go round where EOI = {length[1]}.\n" + "".join(f"Then in {line}.\n" for line in values)


def explained(text, refusal, places, values=()):
    words = re.match(r"refused (G\d+ (?:Limit )?\w+)", refusal)[1]
    wrong, advice = SENTENCES[words]
    word = word_at(text, places[0]) if places else ""
    if words == "G4 Syntax" and not word:
        wrong = "The text ends here, and its grammar doesn't."
    wrong = re.sub(r"^NAME", lambda _: f"`{word}`", wrong)
    return refusal + "\n" + "".join(spot(text, at) for at in places) + noted(refusal, values) + wrong + "\n" + advice + "\n"


def call(command, words, text, name=NAME, data=None):
    """A command on a grammar, and on an input if there is one."""
    with tempfile.TemporaryDirectory() as folder:
        os.mkdir(os.path.join(folder, "some dir"))
        with open(os.path.join(folder, NAME), "wb") as file:
            file.write(text)
        files = []
        if data is not None:
            files = ["input"]
            with open(os.path.join(folder, "input"), "wb") as file:
                file.write(data)
        done = subprocess.run([command, *words, name, *files], cwd=folder, stdin=subprocess.DEVNULL, capture_output=True, timeout=60)
    return done.returncode, done.stdout.decode("latin-1")


def nth(text, part, n):
    at = -1
    for _ in range(n + 1):
        at = text.index(part, at + 1)
    return at


# a text, the refusal of `check` but for a place that is its own last word, the places as a part of the text and which of those, and for a
# cycle the values that always go with its calls, worked out by hand
CASES = [
    (b"\x01", "G2 Lex", [(b"\x01", 0)]),
    (b'S -> "a\n', "G2 Lex", [(b'"', 0)]),
    (b"S -> U8 ;\n\t A -> 'x' ;", "G2 Lex", [(b"'", 0)]),
    (b"# \xc3\xa4\xff\nS -> U8 ?(99999999999999999999 > 1) ;", "G3 Number", [(b"9999", 0)]),
    (b"S ->", "G4 Syntax", [(b"", None)]),
    (b"", "G4 Syntax", [(b"", None)]),
    (b"S -> U8\n", "G4 Syntax", [(b"", None)]),
    (b"S -> U8 \t;;\n", "G4 Syntax", [(b";", 1)]),
    (b"S -> many \"ab\" ;", "G4 Syntax", [(b'"ab"', 0)]),
    (b"S -> A ;\nA -> " + b"U8 " * 300 + b";", "G5 Limit terms", [(b"U8", 256)]),
    (b"S -> A ;\nA -> U8" + b" / U8" * 70 + b" ;\n", "G5 Limit alternatives", [(b"U8", 64)]),
    (b"S -> U8 ;\nT -> U8 ;\nS -> U8 ;", "G6 DuplicateRule", [(b"S ->", 1)]),
    (b"S -> A where { A -> U8 ; } ;\nA -> U8 ;\n", "G6 DuplicateRule", [(b"A ->", 1)]),
    (b"U8 -> U16LE ;", "G6 DuplicateRule", [(b"U8", 0)]),
    (b"S -> A ;\n\tA -> Missing_1 ;", "G7 UnknownRule", [(b"Missing_1", 0)]),
    (b"S -> " + b"x" * 5 + b" ;", "G7 UnknownRule", [(b"xxxxx", 0)]),
    (b"S -> " + b"Long" * 40 + b" ;", "G7 UnknownRule", [(b"Long", 0)]),
    (b"S -> " + b"U8 " * 100 + b"Far " + b"U8 " * 100 + b" ;", "G7 UnknownRule", [(b"Far", 0)]),
    (b"S -> U8 # " + b"." * 10000 + b"\n  Gone ;\n", "G7 UnknownRule", [(b"Gone", 0)]),
    (b"S -> U8 {n = 1} {n = 2} ;", "G8 DuplicateAttr", [(b"n", 1)]),
    (b"S -> {i = 1} for i = 0 to 3 do U8[i, i + 1] ;", "G8 DuplicateAttr", [(b"i = 0", 0)]),
    (b"S -> U8\n {n = m} ;\n", "G9 UnknownAttr", [(b"m", 0)]),
    (b"S -> A ?(A.n) ; A -> U8 {n = 1} / U16LE ;", "G10 PartAttr", [(b"n)", 0)]),
    (b"S -> U8 {n = A.end} ; A -> U8 ;", "G11 NoOccurrence", [(b"A.end", 0)]),
    (b"S -> U8 {a = b} {b = a} ;", "G12 Circular S 0 1", [(b"a = b", 0)]),
    (b"T -> U8 ;\nS -> T / U8 Bytes[0, n] {n = Bytes.end} ;", "G12 Circular S 1 1", [(b"Bytes[", 0)]),
    (b"S -> U8 where {\n L -> U8 / {a = b} {b = a} ;\n} ;", "G12 Circular L 1 0", [(b"a = b", 0)]),
    (b"S -> A where { A -> U8 ; } ;\nB -> U8 where { C -> {x = y} {y = x} ; } ;", "G12 Circular C 0 0", [(b"x = y", 0)]),
    (b"S -> for i = 0 to n do A[i, i + 1] {n = A(0).end} ; A -> U8 ;", "G12 Circular S 0 0", [(b"i = 0", 0)]),
    (b"S -> ?(a) {a = b} {b = a} ;", "G12 Circular S 0 0", [(b"?", 0)]),
    (b"S -> many Bytes ;", "G14 NoTouch S 0 0", [(b"many", 0)]),
    (b"S -> U8 / U8 U8 many\n A ; A -> \"\" ;", "G14 NoTouch S 1 2", [(b"many", 0)]),
    (b"S -> U8 where { L -> many Bytes ; } ;", "G14 NoTouch L 0 0", [(b"many", 0)]),
    (b"S -> S ;", "G13 MayLoop EOI=0 S/0/0/0", [(b"S ;", 0)]),
    (b"S -> A ;\nA -> B ;\nB -> U8 / A ;", "G13 MayLoop EOI=0 A/0/0/0 B/1/0/0", [(b"B ;", 0), (b"A ;", 1)]),
    (b"S -> U8 / {x = 1} switch { case (EOI > 9) U8 case (EOI > 3) S else \"\" } ;", "G13 MayLoop EOI=4 S/1/1/1", [(b"S else", 0)],
     ["S: x = 1"]),
    (b"S -> U8 / switch { case (EOI > 3) U8 else S } ;", "G13 MayLoop EOI=0 S/1/0/1", [(b"S }", 0)]),
    (b"S -> for i = 0 to 1 do A[0, EOI] ; A -> U8 / S ;", "G13 MayLoop EOI=0 S/0/0/0 A/1/0/0", [(b"A[", 0), (b"S ;", 0)], ["S: i = 0"]),
    (b"S -> L where { L -> switch { case (EOI) L else U8 } / U8 ; } ;", "G13 MayLoop EOI=1 L/0/0/0", [(b"L else", 0)]),
    (b'List -> Item Rest ; Item -> Bytes[0] ; Rest -> ?(EOI > 3) List / "" ;', "G13 MayLoop EOI=4 List/0/1/0 Rest/0/1/0",
     [(b"Rest", 0), (b"List", 1)], ["List: Item.start = 4, Item.end = 0"]),
    (b'S -> {n = EOI - 3} ?(n == 2) S[n - 2, EOI] / "" ;', "G13 MayLoop EOI=5 S/0/2/0", [(b"S[", 0)], ["S: n = 2"]),
    (b'S -> "" {n = EOI} ?(n > 1) T[2 * n - 4, EOI] / "" ; T -> U8[0, 1] {m = U8.val} ?(m == 7) S[0, EOI] / "" ;', "G13 MayLoop EOI=2 S/0/3/0 T/0/3/0",
     [(b"T[", 0), (b"S[", 0)], ['S: "".start = 0, "".end = 0, n = 2', "T: U8.start = 0, U8.end = 1, U8.val = 7, m = 7"]),
    (b'S -> {n = EOI - 5} L where { L -> ?(n == 1) L / "" ; } ;', "G13 MayLoop EOI=0 L/0/1/0", [(b"L /", 0)], ["L: EOI of S = 6, n of S = 1"]),
]


def wrong_cases(command):
    differ = 0
    for text, words, parts, *values in CASES:
        places = [len(text) if n is None else nth(text, part, n) for part, n in parts]
        refusal = f"refused {words}" + (f" {places[0]}" if re.match(r"G([2-9]|1[01]) ", words) else "")
        due = explained(text, refusal, places, *values)
        status, said = call(command, ["explain"], text)
        if (status, said) != (2, due):
            differ += 1
            print(f"explain: {text[:60]!r}\n  says {status} {said[:700]!r}\n  due 2 {due[:700]!r}", file=sys.stderr)
    return differ, len(CASES)


def wrong_vectors(command):
    """Grammars that are refused with a place, and those that are accepted."""
    with open(os.path.join(TOP, ".ci/vectors/texts.json"), encoding="utf-8") as file:
        rows = json.load(file)
    texts = sorted({row["files"]["g"] for row in rows if isinstance(row.get("files", {}).get("g"), str)})
    differ = count = 0
    for text in (it.encode("latin-1") for it in texts):
        status, line = call(command, ["check"], text)
        at = re.fullmatch(r"(refused G(?:[2-9]|1[01]) .*?(\d+))\n", line)
        if status not in (0, 2) or (status == 2 and not at):
            continue
        count += 1
        due = explained(text, at[1], [int(at[2])]) if at else line
        if call(command, ["explain"], text) != (status, due):
            differ += 1
            print(f"explain: {text[:60]!r} differs from {due[:300]!r}", file=sys.stderr)
    return differ, count


# ---- inputs

PARSED, NO_PARSE, RANGE = ("parsed", 0), ("no parse", 1), ("range", 3)

EACH = b"S -> " + b" / ".join(b'"a%d"' % n for n in range(10)) + b" ;"
DEEP = b"".join(b"N%d -> N%d ;\n" % (n, n + 1) for n in range(14)) + b'N14 -> "x" ;\n'
PNG = b"""Png -> "\\x89PNG" many Chunk Rest ;
Chunk -> U32BE {size = U32BE.val} Bytes[4] Bytes[size] U32BE ;
Rest -> Bytes ;
"""
FRAME = b"""Frame -> U8 {kind = U8.val} switch { case (kind == 4) Packet[6] else Bytes[6] } ;
Packet -> U8 ?(U8.val == 69) U8 {total = U8.val} ?(total <= EOI) Bytes / Bytes ;
"""
HEXES = "6162636465666768696a6b6c6d6e6f70"

# a grammar (the name of a built-in one: a file of its text is beside), an input, what it comes to, the place, how many more there
# are, and the furthest failures: where in the text, why, what comes of it, the calls that are open below, and the call that failed
# a header that says two section headers of 64 bytes behind it, one of them, and ten bytes
ELF_CUT = b"\x7fELF\x02\x01\x01" + bytes(9) + struct.pack("<HHIQQQIHHHHHH", 2, 62, 1, 0, 0, 64, 0, 64, 0, 0, 64, 2, 0) + bytes(64 + 10)

# a capture of one frame of 38 bytes: an IPv4 packet of 24, with 4 of a datagram's 8 bytes of header
UDP_CUT = bytes.fromhex(
    "d4c3b2a1020004000000000000000000ffff000001000000" "00000000000000002600000026000000" "0200000000010200000000020800"
    "4500001800000000401100000a0000010a000002" "03e807d0")

INPUTS = [
    # a string that differs, from its first byte or a later one, and one that is cut
    (b'S -> "ab" ;', b"ac", NO_PARSE, "1", 0, [
        (('"ab"', 0), 'Wanted at byte 0: "ab" (6162). There stands "ac" (6163), with 1 byte in common.', "S has no tree here.", [], "S 0..2")]),
    (b'S -> "ab" ;', b"xb", NO_PARSE, "0", 0, [
        (('"ab"', 0), 'Wanted at byte 0: "ab" (6162). There stands "xb" (7862), with 0 bytes in common.', "S has no tree here.", [], "S 0..2")]),
    (b'S -> "ab" ;', b"a", NO_PARSE, "0", 0, [
        (('"ab"', 0), 'Wanted: "ab" (6162) on [0, 2], in a part of 1 byte.', "S has no tree here.", [], "S 0..1")]),
    (b'S -> U8 "b"[1, 1] ;', b"a", NO_PARSE, "1, the end of the input", 0, [
        (('"b"', 0), 'Wanted at byte 1: "b" (62). The part ends there.', "S has no tree here.", [], "S 0..1")]),
    (b'S -> U8 "bc"[1, 2] ;', b"abc", NO_PARSE, "2", 0, [
        (('"bc"', 0), 'Wanted at byte 1: "bc" (6263). There stands "bc" (6263), with 1 byte in common.', "S has no tree here.", [], "S 0..3")]),
    # sixteen bytes of each are told, and none raw
    (b'S -> "abcdefghijklmnopqrst" ;', b"abcdefghijklmnopqrsX", NO_PARSE, "19", 0, [
        (('"abc', 0), f'Wanted at byte 0: "abcdefghijklmnop" ({HEXES}+4). There stands "abcdefghijklmnop" ({HEXES}+4), with 19 bytes in common.',
         "S has no tree here.", [], "S 0..20")]),
    (b'S -> "\\x1b[2J" ;', b"\x1b[2\t", NO_PARSE, "3", 0, [
        (('"', 0), 'Wanted at byte 0: ".[2J" (1b5b324a). There stands ".[2 " (1b5b3209), with 3 bytes in common.', "S has no tree here.", [], "S 0..4")]),
    # numbers: no room for the interval, and an interval that is too short
    (b"S -> U8 ;", b"", NO_PARSE, "0, the end of the input", 0, [
        (("U8", 0), "Wanted: U8 on [0, 1], in a part of 0 bytes.", "S has no tree here.", [], "S 0..0")]),
    (b"S -> U8 U16LE ;", b"a", NO_PARSE, "1, the end of the input", 0, [
        (("U16LE", 0), "Wanted: U16LE on [1, 3], in a part of 1 byte.\nU8.end = 1.", "S has no tree here.", [], "S 0..1")]),
    (b"S -> U8 U16LE[1, 2] ;", b"ab", NO_PARSE, "2, the end of the input", 0, [
        (("U16LE", 0), "Wanted at byte 1: U16LE, 2 bytes. Left: 1 byte.", "S has no tree here.", [], "S 0..2")]),
    (b"S -> U64BE[0, 3] ;", b"abcd", NO_PARSE, "3", 0, [
        (("U64BE", 0), "Wanted at byte 0: U64BE, 8 bytes. Left: 3 bytes.", "S has no tree here.", [], "S 0..4")]),
    # intervals that are none
    (b"S -> U8 Bytes[U8.val - 5] ;", b"\x01", NO_PARSE, "1, the end of the input", 0, [
        (("Bytes", 0), "Wanted: Bytes on [1, -3], in a part of 1 byte.\nU8.end = 1, U8.val = 1.", "S has no tree here.", [], "S 0..1")]),
    (b"S -> U8 A[1, 9] ;\nA -> U8 ;", b"ab", NO_PARSE, "1", 0, [
        (("A[", 0), "Wanted: A on [1, 9], in a part of 2 bytes.", "S has no tree here.", [], "S 0..2")]),
    (b"S -> U8 many A[U8.val, 9] ;\nA -> U8 ;", b"\x01", NO_PARSE, "1, the end of the input", 0, [
        (("A[", 0), "Wanted: A on [1, 9], in a part of 1 byte.\nU8.val = 1.", "S has no tree here.", [], "S 0..1")]),
    # tests, and expressions without a value
    (b"S -> U8 ?(U8.val == 1) ;", b"\x02", NO_PARSE, "1, the end of the input", 0, [
        (("?", 0), "The test is 0.\nU8.val = 2.", "S has no tree here.", [], "S 0..1")]),
    (b"S -> U8 {n = 4 / U8.val} ;", b"\x00z", NO_PARSE, "1", 0, [
        (("n =", 0), "An expression of this term has no value.\nU8.val = 0.", "S has no tree here.", [], "S 0..2")]),
    (b"S -> U8 for i = 0 to 1 / U8.val do U8[1, 2] ;", b"\x00a", NO_PARSE, "1", 0, [
        (("U8[", 0), "An expression of this term has no value.\nU8.val = 0.", "S has no tree here.", [], "S 0..2")]),
    # names with their values: each once, an attribute by its name, EOI, what is passed over
    (b"S -> U8 {n = U8.val} ?(n > 1 && n * n == EOI + n) ;", b"\x01", NO_PARSE, "1, the end of the input", 0, [
        (("?", 0), "The test is 0.\nn = 1, EOI = 1.", "S has no tree here.", [], "S 0..1")]),
    (b"S -> U8 ?(U8.val ? 0 : EOI - U8.end) ;", b"\x07", NO_PARSE, "1, the end of the input", 0, [
        (("?", 0), "The test is 0.\nU8.val = 7, EOI = 1, U8.end = 1.", "S has no tree here.", [], "S 0..1")]),
    (b"S -> {a = -1} ?(a + 1) ;", b"", NO_PARSE, "0, the end of the input", 0, [
        (("?", 0), "The test is 0.\na = -1.", "S has no tree here.", [], "S 0..0")]),
    (b"S -> U8 ?(0) ;", b"a", NO_PARSE, "1, the end of the input", 0, [
        (("?", 0), "The test is 0.", "S has no tree here.", [], "S 0..1")]),
    # eight of nine
    (b"S -> " + b" ".join(b"{a%d = %d}" % (n, n) for n in range(9)) + b" ?(" + b" * ".join(b"a%d" % n for n in range(9)) + b") ;", b"", NO_PARSE,
     "0, the end of the input", 0, [
        (("?", 0), "The test is 0.\n" + ", ".join(f"a{n} = {n}" for n in range(8)) + ".", "S has no tree here.", [], "S 0..0")]),
    # a string's end, one with bytes that aren't plain, that of a switch, whatever it took
    (b'S -> "ab" U16LE ;', b"abc", NO_PARSE, "2", 0, [
        (("U16LE", 0), 'Wanted: U16LE on [2, 4], in a part of 3 bytes.\n"ab".end = 2.', "S has no tree here.", [], "S 0..3")]),
    (b'S -> "\\x1b[" U16LE ;', b"\x1b[c", NO_PARSE, "2", 0, [
        (("U16LE", 0), 'Wanted: U16LE on [2, 4], in a part of 3 bytes.\n".[".end = 2.', "S has no tree here.", [], "S 0..3")]),
    (b'S -> U8 switch { case (U8.val == 1) "ab" else "c" } U16LE ;', b"\x02cx", NO_PARSE, "2", 0, [
        (("U16LE", 0), "Wanted: U16LE on [2, 4], in a part of 3 bytes.\nswitch.end = 2.", "S has no tree here.", [], "S 0..3")]),
    # a branch of a switch with its condition, and the one behind `else`, which has none
    (b'S -> U8 switch { case (U8.val == 1) Bytes[5] else "c" } ;', b"\x01", NO_PARSE, "1, the end of the input", 0, [
        (("Bytes", 0), "Wanted: Bytes on [1, 6], in a part of 1 byte.\nU8.val = 1, U8.end = 1.", "S has no tree here.", [], "S 0..1")]),
    (b'S -> U8 switch { case (U8.val == 1) "c" else Bytes[5] } ;', b"\x02", NO_PARSE, "1, the end of the input", 0, [
        (("Bytes", 0), "Wanted: Bytes on [1, 6], in a part of 1 byte.\nU8.end = 1.", "S has no tree here.", [], "S 0..1")]),
    # a field of a branch that wasn't taken has no value; the fields of a rule, and its start
    (b"S -> U8 switch { case (U8.val == 1) A else B } {n = A.size} ;\nA -> U8 {size = U8.val} ;\nB -> U8 ;", b"\x02x", NO_PARSE,
     "2, the end of the input", 0, [
        (("n =", 0), "An expression of this term has no value.\nA.size has no value.", "S has no tree here.", [], "S 0..2")]),
    (b"S -> U8 A[1, 3] ?(A.size < A.start) ;\nA -> U8 {size = U8.val} Bytes ;", b"a\x05b", NO_PARSE, "3, the end of the input", 0, [
        (("?", 0), "The test is 0.\nA.size = 5, A.start = 1.", "S has no tree here.", [], "S 0..3")]),
    # an item's field isn't told, and the names of its index are; a loop's own name
    (b"S -> U8 for k = 0 to 2 do A[k, k + 1] ?(A(U8.val).x == 9) ;\nA -> U8 {x = U8.val} ;", b"\x01b", NO_PARSE, "2, the end of the input", 0, [
        (("?", 0), "The test is 0.\nU8.val = 1.", "S has no tree here.", [], "S 0..2")]),
    (b"S -> U8 for turn = 1 to 4 do A[turn, turn * U8.val] ;\nA -> U8 ;", b"\x02ab", NO_PARSE, "2", 0, [
        (("A[", 0), "Wanted: A on [2, 4], in a part of 3 bytes.\nturn = 2, U8.val = 2.", "S has no tree here.", [], "S 0..3, item 1")]),
    # alternatives: the one that came further; two at one place; more than eight
    (b'S -> "ab" / "xy" ;', b"ac", NO_PARSE, "1", 0, [
        (('"ab"', 0), 'Wanted at byte 0: "ab" (6162). There stands "ac" (6163), with 1 byte in common.', "The next alternative of S is tried.", [],
         "S 0..2")]),
    (b'S -> "xb" / "xc" ;', b"xd", NO_PARSE, "1", 0, [
        (('"xb"', 0), 'Wanted at byte 0: "xb" (7862). There stands "xd" (7864), with 1 byte in common.', "The next alternative of S is tried.", [],
         "S 0..2"),
        (('"xc"', 0), 'Wanted at byte 0: "xc" (7863). There stands "xd" (7864), with 1 byte in common.', "S has no tree here.", [], "S 0..2")]),
    (EACH, b"ax", NO_PARSE, "1", 2, [
        ((f'"a{n}"', 0), f'Wanted at byte 0: "a{n}" (613{n}). There stands "ax" (6178), with 1 byte in common.', "The next alternative of S is tried.",
         [], "S 0..2") for n in range(8)]),
    # a tree, and nothing failed; a tree, though an alternative failed
    (b"S -> U8 ;", b"a", PARSED, None, 0, []),
    (b'S -> "ab" / "ac" ;', b"ac", PARSED, "1", 0, [
        (('"ab"', 0), 'Wanted at byte 0: "ab" (6162). There stands "ac" (6163), with 1 byte in common.', "The next alternative of S is tried.", [],
         "S 0..2")]),
    # repetitions that ended: by a rule, by the last of its alternatives, by a number
    (b'S -> many A Bytes ;\nA -> "a" U8 ?(U8.val == 98) ;', b"abac", PARSED, "4, the end of the input", 0, [
        (("?", 0), "The test is 0.\nU8.val = 99.", "A has no tree here, and the repetition ends.", [("S 0..4", "many", 0)], "A 2..4")]),
    (b'S -> many I Bytes ;\nI -> "a" "b" / "a" "c" ;', b"abad", PARSED, "3", 0, [
        (('"b"', 0), 'Wanted at byte 3: "b" (62). There stands "d" (64), with 0 bytes in common.', "The next alternative of I is tried.",
         [("S 0..4", "many", 0)], "I 2..4"),
        (('"c"', 0), 'Wanted at byte 3: "c" (63). There stands "d" (64), with 0 bytes in common.', "I has no tree here, and the repetition ends.",
         [("S 0..4", "many", 0)], "I 2..4")]),
    (b"S -> many U16LE Bytes ;", b"abc", PARSED, "3, the end of the input", 0, [
        (("U16LE", 0), "Wanted at byte 2: U16LE, 2 bytes. Left: 1 byte.", "The repetition ends here.", [], "S 0..3, item 1")]),
    # a chunk whose head is nine bytes short: no chunk is in the tree, and the parse goes well
    (PNG, b"\x89PNG\x00\x00\x00\x0dIHDR\x00\x00\x00\x01", PARSED, "12", 0, [
        (("Bytes[size]", 0), "Wanted: Bytes on [8, 21], in a part of 12 bytes.\nBytes.end = 8, size = 13.",
         "Chunk has no tree here, and the repetition ends.", [("Png 0..16", "many", 0)], "Chunk 4..16")]),
    # a packet that became raw bytes, since its total is beyond its part
    (FRAME, b"\x04\x45\x09....", PARSED, "3", 0, [
        (("?(total", 0), "The test is 0.\ntotal = 9, EOI = 6.", "The next alternative of Packet is tried.", [("Frame 0..7", "switch", 0)], "Packet 1..7")]),
    # arrays: a rule at an item, and an item that has no interval
    (b'S -> U8 for i = 0 to U8.val do A[1 + i, 2 + i] ;\nA -> "x" ;', b"\x02xy", NO_PARSE, "2", 0, [
        (('"x"', 0), 'Wanted at byte 2: "x" (78). There stands "y" (79), with 0 bytes in common.', "A has no tree here.", [("S 0..3", "i = 0", 0)],
         "A 2..3")]),
    (b"S -> U8 for i = 0 to 2 do U8[1 + i, 2 + i] ;", b"ab", NO_PARSE, "2, the end of the input", 0, [
        (("U8[", 0), "Wanted: U8 on [2, 3], in a part of 2 bytes.\ni = 1.", "S has no tree here.", [], "S 0..2, item 1")]),
    # branches of a switch, the last one too
    (b'S -> U8 switch { case (U8.val == 1) "a" case (U8.val == 2) "b" else "c" } ;', b"\x02x", NO_PARSE, "1", 0, [
        (('"b"', 0), 'Wanted at byte 1: "b" (62). There stands "x" (78), with 0 bytes in common.', "S has no tree here.", [], "S 0..2")]),
    (b'S -> U8 switch { case (U8.val == 1) "a" case (U8.val == 2) "b" else "c" } ;', b"\x03x", NO_PARSE, "1", 0, [
        (('"c"', 0), 'Wanted at byte 1: "c" (63). There stands "x" (78), with 0 bytes in common.', "S has no tree here.", [], "S 0..2")]),
    # local rules count where their holder's alternative stands
    (b"S -> U8 {n = U8.val} L where { L -> U8 ?(U8.val < n) ; } ;", b"\x01\x05", NO_PARSE, "2, the end of the input", 0, [
        (("?", 0), "The test is 0.\nU8.val = 5, n = 1.", "L has no tree here.", [("S 0..2", "L where", 0)], "L 1..2")]),
    (b'S -> L A where { L -> U8 ; } ;\nA -> "q" ;', b"az", NO_PARSE, "1", 0, [
        (('"q"', 0), 'Wanted at byte 1: "q" (71). There stands "z" (7a), with 0 bytes in common.', "A has no tree here.", [("S 0..2", "A where", 0)],
         "A 1..2")]),
    # a call that is remembered fails once
    (b'S -> A "x" / A "y" ;\nA -> "a" "b" ;', b"ac", NO_PARSE, "1", 0, [
        (('"b"', 0), 'Wanted at byte 1: "b" (62). There stands "c" (63), with 0 bytes in common.', "A has no tree here.", [("S 0..2", 'A "x"', 0)],
         "A 0..2")]),
    # of fourteen calls four and eight are told; a long name is cut
    (DEEP, b"y", NO_PARSE, "0", 0, [
        (('"x"', 0), 'Wanted at byte 0: "x" (78). There stands "y" (79), with 0 bytes in common.', "N14 has no tree here.",
         [(f"N{n} 0..1", f"N{n + 1} ;", 0) for n in range(4)] + [2] + [(f"N{n} 0..1", f"N{n + 1} ;", 0) for n in range(6, 14)], "N14 0..1")]),
    (b"Long" * 20 + b' -> "x" ;', b"y", NO_PARSE, "0", 0, [
        (('"x"', 0), 'Wanted at byte 0: "x" (78). There stands "y" (79), with 0 bytes in common.', "Long" * 16 + " has no tree here.", [],
         "Long" * 16 + " 0..1")]),
    # a capture with two bytes of its magic swapped, and a picture that ends before its trailer
    ("@pcap", b"\xd4\xc3\xa1\xb2" + bytes(20), NO_PARSE, "2", 0, [
        (('"\\xd4', 0), 'Wanted at byte 0: "...." (d4c3b2a1). There stands "...." (d4c3a1b2), with 2 bytes in common.',
         "The next alternative of Magic is tried.", [("Pcap 0..24", "Magic[", 0)], "Magic 0..4")]),
    ("@gif", b"GIF89a\x01\x00\x01\x00\x00\x00\x00", NO_PARSE, "13, the end of the input", 0, [
        (('"\\x21"', 0), 'Wanted: "!" (21) on [0, 1], in a part of 0 bytes.', "Ext has no tree here.",
         [("Gif 0..13", "Blocks[", 0), ("Blocks 13..13", "many Block", 0), ("Block 13..13", "Ext / Image", 0)], "Ext 13..13"),
        (('"\\x2c"', 0), 'Wanted: "," (2c) on [0, 1], in a part of 0 bytes.', "Image has no tree here.",
         [("Gif 0..13", "Blocks[", 0), ("Blocks 13..13", "many Block", 0), ("Block 13..13", "Image ;", 0)], "Image 13..13"),
        (('"\\x3b"', 0), 'Wanted: ";" (3b) on [0, 1], in a part of 0 bytes.', "Blocks has no tree here.", [("Gif 0..13", "Blocks[", 0)],
         "Blocks 13..13")]),
    # an object whose second section header is cut
    ("@elf", ELF_CUT, NO_PARSE, "128", 0, [
        (("Sh[", 0), "Wanted: Sh on [128, 192], in a part of 138 bytes.\nHead.shoff = 64, i = 1, Head.shsize = 64.",
         "Elf has no tree here.", [], "Elf 0..138, item 1")]),
    # a datagram of four bytes, which are told as raw ones, behind the last packet of a capture
    ("@pcap", UDP_CUT, PARSED, "78, the end of the input", 0, [
        (("U16BE {length", 0), "Wanted: U16BE on [4, 6], in a part of 4 bytes.\nU16BE.end = 4.", "The next alternative of Udp is tried.",
         [("Pcap 0..78", "many Rec", 0), ("Rec 24..78", "switch { case (link", 0), ("Eth 40..78", "switch { case (type", 0),
          ("Ip 54..78", "switch { case ((frag", 0)], "Udp 74..78"),
        (("U32LE", 0), "Wanted: U32LE on [0, 4], in a part of 0 bytes.", "The next alternative of Word is tried.",
         [("Pcap 0..78", "many Rec", 0), ("Rec 78..78", "Word {sec", 0)], "Word 78..78"),
        (("U32BE", 0), "Wanted: U32BE on [0, 4], in a part of 0 bytes.", "Word has no tree here.",
         [("Pcap 0..78", "many Rec", 0), ("Rec 78..78", "Word {sec", 0)], "Word 78..78")]),
    # a value that leaves 64 bits: the term, and what failed before
    (b"S -> U8 {n = 9223372036854775807 + U8.val} ;", b"\x01", RANGE, None, 0, [], ("n = 9", 0, "S 0..1")),
    (b'S -> "ab" / A ;\nA -> U8 {n = 0x7fffffffffffffff + U8.val} ;', b"ac", RANGE, "1", 0, [
        (('"ab"', 0), 'Wanted at byte 0: "ab" (6162). There stands "ac" (6163), with 1 byte in common.', "The next alternative of S is tried.", [],
         "S 0..2")], ("n = 0", 0, "A 0..2")),
]


def told(text, name, row):
    """What is told of an input, put together from what a row says."""
    (outcome, _), where, more, stories = row[2:6]
    at = lambda part, n: nth(text, part.encode(), n)
    said = outcome + "\n"
    if len(row) > 6:
        part, n, last = row[6]
        said += spot(text, at(part, n), name) + f"A value leaves 64 bits here.\nin {last}\n"
    if not stories:
        return said + "No term failed.\n"
    head = "failure is" if len(stories) == 1 and not more else "failures are"
    said += f"The furthest {head} at byte {where}" + (f", and {more} more" if more else "") + ".\n"
    for mark, why, then, calls, last in stories:
        said += "\n" + spot(text, at(*mark), name) + f"{why}\n{then}\n"
        for one in calls:
            said += f".. {one} more calls ..\n" if isinstance(one, int) else f"in {one[0]} at {place(text, at(*one[1:]), name)}\n"
        said += f"in {last}\n"
    return said


def wrong_inputs(command):
    """What `explain` says of inputs; of a built-in grammar the text is that of crates/ipg_formats."""
    differ = 0
    for row in INPUTS:
        grammar, data, (_, due_status) = row[:3]
        text, name = grammar, NAME
        if isinstance(grammar, str):
            name = grammar
            with open(os.path.join(TOP, f"crates/ipg_formats/src/texts/{grammar[1:]}.rt"), encoding="utf-8") as file:
                text = re.search(r'br#"(.*?)"#', file.read(), re.S)[1].encode()
        due = told(text, name, row)
        status, said = call(command, ["explain"], text, name, data)
        parsed = call(command, ["parse"], text, name, data)[0]
        if (status, said, parsed) != (due_status, due, due_status):
            differ += 1
            print(f"explain: {text[:60]!r} {data[:30]!r}\n  says {status} {said}\n  due {due_status} {due}\n  parse {parsed}", file=sys.stderr)
    return differ, len(INPUTS)


def wrong_refused(command):
    """A refused grammar is told with a file as without, an absent one is a read fault, and so is an absent input."""
    differ = 0
    text = b"S -> U8 {n = U24.val} ;"
    if call(command, ["explain"], text, NAME, b"a") != call(command, ["explain"], text) or call(command, ["explain"], text)[0] != 2:
        differ += 1
        print("explain: a refused grammar is told otherwise with a file", file=sys.stderr)
    fault = (5, "read fault\n")
    if call(command, ["explain"], b"", "absent", b"a") != fault or call(command, ["explain", NAME], b"S -> U8 ;", "absent") != fault:
        differ += 1
        print("explain: an absent file is no read fault", file=sys.stderr)
    return differ, 2


def main():
    command = os.path.abspath(sys.argv[1])
    differ, count = wrong_cases(command)
    other, more = wrong_vectors(command)
    inputs, told_of = wrong_inputs(command)
    refused, tried = wrong_refused(command)
    wrong = differ + other + inputs + refused
    print(f"explain: {count} cases by hand, {more} grammars of the vectors, {told_of} inputs by hand, {tried} of files, {wrong} differ")
    return 1 if wrong else 0


if __name__ == "__main__":
    sys.exit(main())
