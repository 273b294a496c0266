"""The package for Python: what its own page shows, trees of any depth, columns, errors with their places, and formats that come with it.

  library.py [SAMPLES]

SAMPLES is a folder of formats/samples.py: each file is to be found of its own format.
"""

import array
import concurrent.futures
import itertools
import mmap
import os
import pickle
import re
import struct
import sys
import threading

import ipg

# the second chunk says that it has nine bytes
CHUNKS = 'File -> "CHNK" many Chunk End ;\nChunk -> U8 {size = U8.val} ?(size > 0) Bytes[size] ;\nEnd -> "\\x00" ;\n'
WRONG = b"CHNK\2ab\tcd\0"

FAULTS = []


def expect(what, got, due):
    if got != due:
        FAULTS.append(f"{what}: got {got!r:.500}, due {due!r:.500}")


def refused(make):
    try:
        make()
    except ipg.Error as error:
        return error
    return None


def same(one, other):
    """Whether two trees are, in all that they tell."""
    left = [(one, other)]
    while left:
        one, other = left.pop()
        if type(one) is not type(other) or str(one) != str(other) or (isinstance(one, ipg.Node) and one.touched != other.touched):
            return False
        if not isinstance(one, ipg.Leaf):
            if len(one) != len(other):
                return False
            left.extend(zip(one, other))
    return True


def depth(node):
    """How many arrays lie in one another, the first one of each."""
    count = 0
    while node is not None:
        # an array's items are a part of it
        count += isinstance(node, ipg.Node) and node.rule == "Array"
        node = next((kid for kid in node if not isinstance(kid, ipg.Leaf) and kid.name in ("Item", "Array")), None)
    return count


def deep_trees():
    """What nests a hundred thousand deep, on a stack of half a mebibyte."""
    grammar, got, stack = ipg.builtin("cbor"), [], threading.stack_size(1 << 19)

    def parse():
        tree = grammar.parse(b"\x81" * 100000 + b"\0")
        got.append(sum(1 for _ in tree.walk("Array")))
        got.append(depth(tree))
        got.append(tree == pickle.loads(pickle.dumps(tree)))
        got.append(type(refused(lambda: grammar.parse(b"\x81" * 10000))))

    thread = threading.Thread(target=parse)
    thread.start()
    thread.join()
    threading.stack_size(stack)
    expect("a deep tree on a small stack", got, [100000, 100000, True, ipg.NoParse])
    expect("the limit of recursion", sys.getrecursionlimit(), LIMIT)


def nodes():
    """A node's own names, and attributes of the same names."""
    text = 'S -> U8 {count = U8.val} {index = 2} {rule = 3} {kids = 4} U16BE T many U8 ;\nT -> "" ;'
    tree = ipg.Grammar(text).parse(b"a\1\2zz")
    # `start` and `end` are reserved words; the others are told in the page of Node
    own = {name for name in dir(tree) if name[0] != "_"} - {"start", "end"}
    expect("a node's own names", own, set(re.findall(r"`(\w+)`", ipg.Node.__doc__.split(":")[1].split(".")[0])))
    expect("attributes of any name", [tree[name] for name in ("count", "index", "rule", "kids")], [97, 2, 3, 4])
    expect("attributes that are no names of a node's own", (tree.count, tree.index, tree.rule), (97, 2, "S"))
    missing = refused_by(KeyError, lambda: tree["size"])
    expect("a name that is no attribute", (hasattr(tree, "size"), "size" in tree.attrs, type(missing)), (False, False, KeyError))
    number, items = tree.kids[1], tree.kids[3]
    expect("a number", (number.name, number.span, number.value, number.bytes(), number.parent == tree), ("U16BE", (1, 3), 258, b"\1\2", True))
    expect("items", (items[1].parent, len(items), [item.value for item in items[0:2]]), (items, 2, [122, 122]))
    expect("the root's", (tree.parent, tree.bytes(), tree.name, repr(tree)), (None, b"a\1\2zz", "S", "<S 0..5 count=97 index=2 rule=3 kids=4>"))
    again = ipg.Grammar(text).parse(b"a\1\2zz")
    expect("equal trees", (tree == again, tree.kids[2] == again.kids[2], tree == tree.kids[2], len({tree, again})), (True, True, False, 1))
    expect("another input", tree == ipg.Grammar(text).parse(b"a\1\2zy"), False)
    expect("a pickled node", pickle.loads(pickle.dumps(tree.kids[2])), tree.kids[2])


def refused_by(kind, make):
    try:
        make()
    except kind as error:
        return error
    return None


def shared():
    """A grammar and a tree that threads share, and both sides of a fork; and an input that is closed before an error is looked at."""
    grammar = ipg.Grammar("S -> many T ;\nT -> U8 {n = U8.val} ;")
    with concurrent.futures.ThreadPoolExecutor(8) as pool:
        sums = list(pool.map(lambda size: sum(grammar.parse(b"\2" * size).column("T", "n")), range(1, 400)))
    expect("eight threads", sums, [2 * size for size in range(1, 400)])
    tree = grammar.parse(b"abc")
    child = os.fork()
    if child == 0:
        os._exit(0 if grammar.parse(b"abc") == tree and tree.kids[0][2]["n"] == 99 else 1)
    expect("a fork", os.waitpid(child, 0)[1], 0)
    with mmap.mmap(-1, 4) as data:
        error = refused(lambda: ipg.Grammar('S -> "x" ;').parse(data))
    expect("an error of an input that was closed", (str(error), error.at, error.explain()), ("no parse", None, ""))


def packet(number):
    return struct.pack("<IIII", number, 0, number % 50, 60) + bytes(number % 50)


def rows():
    """Columns of a capture whose packets have known lengths; and rows, as numpy has them where it is there."""
    head = struct.pack("<IHHiIII", 0xA1B2C3D4, 2, 4, 0, 0, 65535, 101)
    tree = ipg.builtin("pcap").parse(head + b"".join(map(packet, range(1000))))
    caps = array.array("q", (number % 50 for number in range(1000)))
    expect("a column", tree.column("Rec", "cap"), caps)
    expect("another column", tree.column("Rec", "sec"), array.array("q", range(1000)))
    expect("the column by nodes", array.array("q", (node["cap"] for node in tree.walk("Rec"))), caps)
    expect("a name that isn't the grammar's", type(refused_by(KeyError, lambda: tree.column("Rec", "nothing"))), KeyError)
    some = ipg.Grammar('S -> many T ;\nT -> "a" {n = 1} {m = 2} / "b" {m = 3} / "c" ;').parse(b"abcba")
    expect("a column of some nodes", list(some.column("T", "m")), [2, 3, 3, 2])
    expect("the size of rows", len(tree.rows()) % ipg.ROW["itemsize"], 0)
    try:
        import numpy
    except ImportError:
        return
    told = numpy.frombuffer(tree.rows(), ipg.ROW)
    records = told[(told["kind"] == 0) & (told["name"] == ipg.builtin("pcap").rules.index("Rec"))]
    expect("rows by numpy", (records["end"] - records["start"] - 16).tolist(), list(caps))
    expect("a column by numpy", numpy.asarray(tree.column("Rec", "cap")).sum(), sum(caps))


def failures():
    """Where a file fails, as the page of EXPLAIN has it; and what is told of a refusal."""
    grammar = ipg.Grammar(CHUNKS, name="chunks.ipg")
    error = refused(lambda: grammar.parse(WRONG))
    due = (8, 2, 41, "Chunk", "Wanted: Bytes on [1, 10], in a part of 4 bytes.")
    expect("where a file fails", (error.at, error.line, error.column, error.rule, error.wanted), due)
    expect("the error's line", str(error), "no parse at byte 8, in Chunk, chunks.ipg:2:41")
    expect("the page", error.explain().splitlines()[:2], ["no parse", "The furthest failure is at byte 8."])
    other = pickle.loads(pickle.dumps(error))
    expect("a pickled error", (type(other), other.status, other.at, str(other)), (ipg.NoParse, 1, 8, str(error)))
    range_error = refused(lambda: ipg.Grammar("S -> {a = 9223372036854775807 + 1} ;").parse(b""))
    expect("where a value leaves 64 bits", (range_error.at, range_error.line, range_error.column, range_error.rule), (None, 1, 7, "S"))
    loop = refused(lambda: ipg.Grammar("S -> A ;\nA -> S ;"))
    expect("a refused cycle", (loop.code, loop.at, loop.rule, loop.line, loop.column), ("G13", None, "S", 1, 6))
    unknown = refused(lambda: ipg.Grammar("S -> U24 {n = U24.val} ;"))
    expect("a refused name", (unknown.code, unknown.at, unknown.line, unknown.column), ("G7", 5, 1, 6))
    expect("a refused path", (refused(lambda: grammar.query(b"", "a b")).code), "Q1")


def tables():
    """By a table file a file has the tree that it has by the grammar; a closed grammar has none."""
    grammar = ipg.Grammar(CHUNKS, name="chunks.ipg")
    files = {"table": grammar.table(), "input": b"CHNK\2ab\0", "chunks.ipg": CHUNKS.encode()}
    loaded = ipg.run(["load", "table", "input"], files)
    expect("a tree by a table file", (loaded[0], loaded[1][:7]), (0, b"0 File "))
    expect("which is the grammar's", loaded, ipg.run(["parse", "chunks.ipg", "input"], files))
    picture = {"table": ipg.builtin("gif").table(), "input": b"GIF89a\1\0\1\0\0\0\0;"}
    expect("the table file of a built-in grammar", ipg.run(["load", "table", "input"], picture)[0], 0)
    grammar.close()
    expect("of a closed grammar", type(refused_by(ValueError, grammar.table)), ValueError)


def streams():
    """Inputs without an end, of which no more are taken than a window holds."""
    taken = []

    def inputs():
        for number in itertools.count():
            taken.append(number)
            yield b"\1" if number % 3 else b""

    grammar = ipg.Grammar("S -> U8 ;")
    first = list(itertools.islice(grammar.parse_each(inputs(), window=4), 6))
    expect("six of a stream", [isinstance(one, ipg.NoParse) for one in first], [True, False, False, True, False, False])
    expect("what was taken of it", len(taken), 8)
    large = list(grammar.parse_each((b"\1" * (1 << 21) for _ in range(5)), window=100))
    expect("large ones", len(large), 5)
    with pickle.loads(pickle.dumps(grammar)) as again:
        expect("a pickled grammar", again.parse(b"a"), grammar.parse(b"a"))
    expect("a closed grammar", type(refused_by(ValueError, lambda: again.parse(b"a"))), ValueError)


def known_formats():
    """Each sample is found to be of its own format, or of the one that it is a kind of."""
    names = ipg.formats()
    expect("built-in formats", [name for name in ("elf", "gif", "pcap", "pe") if name not in names], [])
    expect("a format that isn't there", type(refused_by(ValueError, lambda: ipg.builtin("nothing"))), ValueError)
    if len(sys.argv) < 2:
        return
    # the sample of RIFF is a WAV file, and that of notes an ELF file
    kinds = {"elf-notes": "Elf", "riff": "Wav"}
    for name in sorted(os.listdir(sys.argv[1])):
        rule = kinds.get(name) or ipg.builtin(name).rules[0]
        expect(f"a file of {name}", ipg.open(os.path.join(sys.argv[1], name)).rule, rule)


LIMIT = sys.getrecursionlimit()


def main():
    grammar = ipg.Grammar('S -> "N" U8 {size = U8.val} Bytes[size] many T ;\nT -> U64LE {id = U64LE.lo} ;')
    tree = grammar.parse(bytearray(b"N\x02hi\1\0\0\0\2\0\0\0"))
    expect("a node", (tree.rule, tree.start, tree.end, tree.touched, tree.attrs), ("S", 0, 12, (0, 12), {"size": 2}))
    expect("its children", [str(kid) for kid in tree], ["<tok 0..1>", "<U8 1..2 2>", "<Bytes 2..4>", "<many T x 1>"])
    expect("an item", (tree[-1][0].id, tree[-1][0][0].value), (1, 1 | 2 << 32))
    expect("nodes of a tree", [node.rule for node in tree.walk()], ["S", "T"])
    expect("a query", grammar.query(b"N\x01h", "**.size"), [1])
    expect("no tree", type(refused(lambda: grammar.parse(b""))), ipg.NoParse)

    error = refused(lambda: ipg.Grammar("S -> A ;\nA -> U24 ;"))
    expect("a refused grammar", (type(error), error.line, error.column), (ipg.GrammarError, 2, 6))
    expect("a loop", type(refused(lambda: ipg.Grammar("S -> S[0, EOI] ;"))), ipg.GrammarError)
    expect("a number that leaves 64 bits", type(refused(lambda: ipg.Grammar("S -> {a = 9223372036854775807 + 1} ;").parse(b""))), ipg.OutOfRange)
    expect("words that are no command", ipg.run([], {})[0], 4)

    each = list(grammar.parse_each([b"N\x02hi\1\0\0\0\2\0\0\0", b"", b"N\x00"]))
    expect("trees of many inputs", [same(each[0], tree), type(each[1]), str(each[2])], [True, ipg.NoParse, "<S 0..2 size=0>"])
    expect("no inputs", list(grammar.parse_each([])), [])
    ranges = ipg.Grammar("S -> U64LE[0, 8] {n = -U64LE.lo} {a = n * 9223372036854775807} ;").parse_each([bytes(8), b"\2" + bytes(7)])
    ranges = list(ranges)
    expect("a number that leaves 64 bits, by rows", [str(ranges[0]), type(ranges[1])], ["<S 0..8 n=0 a=0>", ipg.OutOfRange])
    expect("a negative attribute", ipg.Grammar("S -> U8 {n = 0 - U8.val} ;").parse(b"\5").n, -5)

    deep = ipg.Grammar('L -> "x" L / "" ;').parse(b"x" * 3000)
    expect("a deep tree", sum(1 for _ in deep.walk()), 3001)
    with open(sys.executable, "rb") as file, mmap.mmap(file.fileno(), 0, access=mmap.ACCESS_READ) as data:
        expect("a program's own head", ipg.builtin("elf").query(data, "**.len"), [len(data)])
        expect("a program's tree by rows", same(next(ipg.builtin("elf").parse_each([data])), ipg.builtin("elf").parse(data)), True)
    for test in (shared, deep_trees, nodes, rows, failures, tables, streams, known_formats):
        test()
    for fault in FAULTS:
        print(f"library: {fault}")
    return 1 if FAULTS else 0


if __name__ == "__main__":
    sys.exit(main())
