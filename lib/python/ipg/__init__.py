"""Parse binary files by Interval Parsing Grammars, with the proved parser.

    >>> import ipg
    >>> grammar = ipg.Grammar('S -> "N" U8 {size = U8.val} Bytes[size] ;')
    >>> tree = grammar.parse(b"N\\x02hi")
    >>> tree
    <S 0..4 size=2>
    >>> tree["size"], tree.kids
    (2, [<tok 0..1>, <U8 1..2 2>, <Bytes 2..4>])
    >>> tree.kids[2].bytes()
    b'hi'

A tree is a table of rows, as the library writes it; nodes are made when they are looked at. So a tree may be as deep as memory holds, and a
column of it is one call (`tree.column("S", "size")`).
A grammar is refused by `GrammarError`, which has the place; an input without a tree is `NoParse`, which has the place where it failed.
`ipg.formats()` names the grammars that come with the package, and `ipg.builtin("elf")` is one of them. All stands on the shared library alone:
where the variable IPG_LIBRARY says, or `libipg.so` (`ipg.dll` on Windows) beside this file, or the one kept in this repository's `dist/`.
Nothing is kept between calls but what Python holds: grammars may be shared by threads, and used on both sides of a fork.
"""

from __future__ import annotations

import array
import builtins
import ctypes
import itertools
import mmap
import os
import platform
import re
import sys
from collections.abc import Iterable, Iterator, Mapping, Sequence
from typing import Any, Dict, List, NoReturn, Union, overload

__all__ = [
    "ROW", "BadProof", "Error", "Grammar", "GrammarError", "Items", "Leaf", "NoParse", "Node", "OutOfMemory", "OutOfRange", "Refused",
    "TooLarge", "Tree", "builtin", "formats", "open", "run", "view",
]  # fmt: skip

Buffer = Union[bytes, bytearray, memoryview, mmap.mmap]
Files = Mapping[str, Buffer]
FIRST_ROOM = 1 << 16


class Error(Exception):
    """What `ipg` says in place of an answer. `status` is the exit status of the command line, `text` what it says.

    >>> try:
    ...     Grammar('S -> U8 ;').query(b"x", "a b")
    ... except Error as error:
    ...     print(error.status, error)
    2 refused Q1 QuerySyntax 1
    """

    def __init__(self, status: int, text: str) -> None:
        super().__init__(status, text)
        self.status = status
        self.text = text

    def __str__(self) -> str:
        return self.text


class _Failed(Error):
    """A parse that failed, with what `explain` tells of it. That is asked for when it is looked at: until then the input is kept."""

    _name: str = "grammar"
    _files: Files | None = None
    _page: str = ""

    def _told(self, name: str, files: Files) -> _Failed:
        self._name, self._files = name, files
        return self

    def __reduce__(self) -> tuple[Any, ...]:
        return type(self), (self.status, self.text), {"_page": self.explain(), "_name": self._name}

    def __str__(self) -> str:
        if self.line is None:
            return self.text
        byte = "" if self.at is None else f" at byte {self.at}"
        return f"{self.text}{byte}, in {self.rule}, {self._name}:{self.line}:{self.column}"

    def explain(self) -> str:
        """The page of `ipg explain`: where the parse failed furthest, and why.

        >>> try:
        ...     Grammar('S -> "N" U8 ;').parse(b"N")
        ... except NoParse as error:
        ...     print(error.explain().splitlines()[1])
        The furthest failure is at byte 1, the end of the input.
        """
        files, self._files = self._files, None
        if files is not None:
            try:
                self._page = run(["explain", self._name, "input"], files)[1].decode("utf-8", "replace")
            except (BufferError, ValueError):
                # the input was closed since: all that is known is that it has no tree
                self._page = ""
        return self._page

    def _block(self) -> list[str]:
        """The first failure that the page tells: its place, the line, the mark, why, and what comes of it."""
        lines = self.explain().splitlines()
        begins = next((at for at, line in enumerate(lines) if re.fullmatch(r".*:\d+:\d+", line)), len(lines))
        return list(itertools.takewhile(bool, lines[begins:]))

    def _place(self, which: int) -> int | None:
        block = self._block()
        return int(block[0].rsplit(":", 2)[which]) if block else None

    @property
    def at(self) -> int | None:
        """The byte of the furthest failure. It is None where a value left 64 bits, and where there is no page."""
        found = re.search(r"^The furthest failures? (?:is|are) at byte (\d+)", self.explain(), re.MULTILINE)
        return int(found[1]) if found and self.status == 1 else None

    @property
    def line(self) -> int | None:
        """The line of the term that failed there, from 1 on."""
        return self._place(1)

    @property
    def column(self) -> int | None:
        """The column of that term, in bytes, from 1 on."""
        return self._place(2)

    @property
    def wanted(self) -> str | None:
        """Why that term failed, in the page's words."""
        return "\n".join(self._block()[3:4]) or None

    @property
    def rule(self) -> str | None:
        """The rule whose term failed there."""
        calls = [line.split()[1] for line in self._block() if re.match(r"in \S+ \d+\.\.\d+", line)]
        return calls[-1] if calls else None


class NoParse(_Failed):
    """The input has no tree. Of the term that came furthest: `at`, `line`, `column`, `rule`, `wanted`, and `explain()`.

    >>> try:
    ...     Grammar('S -> "N" U8 {size = U8.val} Bytes[size] ;').parse(b"N\\x09hi")
    ... except NoParse as error:
    ...     print(error.at, error.line, error.column, error.rule, error.wanted)
    ...     print(error)
    2 1 29 S Wanted: Bytes on [2, 11], in a part of 4 bytes.
    no parse at byte 2, in S, grammar:1:29
    """


class OutOfRange(_Failed):
    """An evaluated expression leaves 64 bits. `line`, `column` and `rule` are those of its term."""


class Refused(Error):
    """A grammar, a path, a script or a table file is refused. `code` is that of the page of refusals, `at` the byte where it has one."""

    @property
    def code(self) -> str | None:
        """The number of the refusal, as `G7`."""
        found = re.match(r"refused (\S+)", self.text)
        return found[1] if found else None

    @property
    def at(self) -> int | None:
        """The byte of the text at which it is refused, from 0 on; or None."""
        found = re.match(r"refused \S+ \S+ (\d+)$", self.text, re.MULTILINE)
        return int(found[1]) if found else None

    def explain(self) -> str:
        """All that was said."""
        return self.text


class GrammarError(Refused):
    """The grammar is refused. `line` and `column` count from 1, `column` in bytes; they are None where there is no place.

    >>> try:
    ...     Grammar("S -> A ;")
    ... except GrammarError as error:
    ...     print(error.code, error.at, error.line, error.column)
    G7 5 1 6
    """

    def _place(self, which: int) -> int | None:
        found = re.search(r"^.*:(\d+):(\d+)$", self.text, re.MULTILINE)
        return int(found[which]) if found else None

    @property
    def line(self) -> int | None:
        """The line of the first place, from 1 on."""
        return self._place(1)

    @property
    def column(self) -> int | None:
        """The column of the first place, in bytes, from 1 on."""
        return self._place(2)

    @property
    def rule(self) -> str | None:
        """The rule that is refused, where the refusal names one."""
        found = re.match(r"refused G1[234] \w+ (?:EOI=\d+ )?([A-Za-z_]\w*)", self.text)
        return found[1] if found else None


class OutOfMemory(Error):
    """Memory was wanting, or a limit of the checker's own was reached."""


class TooLarge(Error):
    """An input has more than 2^30 bytes, or a grammar more than 2^20."""


class BadProof(Error):
    """A certificate does not prove the grammar."""


_ERRORS: Dict[int, type[Error]] = {1: NoParse, 2: Refused, 3: OutOfRange, 7: OutOfMemory, 8: TooLarge, 9: BadProof}
_TEXTS = {1: "no parse", 3: "range", 7: "out of memory", 8: "too large"}


def _error(status: int, text: str = "") -> Error:
    return _ERRORS.get(status, Error)(status, text or _TEXTS.get(status, ""))


class _Bytes(ctypes.Structure):
    _fields_ = [("at", ctypes.c_void_p), ("size", ctypes.c_size_t)]


class _File(ctypes.Structure):
    _fields_ = [("name", _Bytes), ("bytes", _Bytes)]


class _Answer(ctypes.Structure):
    _fields_ = [("status", ctypes.c_uint64), ("rows", ctypes.c_uint64)]


#: A row of `tree.rows()`, as numpy has it: `numpy.frombuffer(tree.rows(), ipg.ROW)`. `lib/include/ipg.h` says what is in it.
ROW: Dict[str, Any] = {
    "names": ["kind", "of", "name", "high", "low", "depth", "from", "to", "start", "end", "value"],
    "formats": ["u4"] * 5 + ["u8"] * 5 + ["i8"],
    "offsets": [0, 4, 8, 12, 16, 24, 32, 40, 48, 56, 64],
    "itemsize": 72,
}
_SIZE = 72
# the same places, counted in numbers of four bytes and of eight
_HALVES, _WORDS = _SIZE // 4, _SIZE // 8
_KIND, _OF, _NAME, _HIGH, _LOW = range(5)
_DEPTH, _FROM, _TO, _START, _END, _VALUE = range(3, 9)
_NODE, _ATTRIBUTE, _TERMINAL, _NUMBER, _RAW, _ARRAY, _REPETITION = range(7)
_PRIMITIVES = ("U8", "U16LE", "U16BE", "U32LE", "U32BE", "U64LE", "U64BE", "Bytes")
# which of a number's four bytes is the least
_LEAST = 0 if sys.byteorder == "little" else 3


def _path() -> str:
    here = os.path.dirname(os.path.abspath(__file__))
    name = "ipg.dll" if os.name == "nt" else "libipg.so"
    kept = "libipg-aarch64.so" if platform.machine() == "aarch64" else name
    places = (os.path.join(here, name), os.path.join(here, "..", "..", "..", "dist", kept))
    return os.environ.get("IPG_LIBRARY", "") or next((place for place in places if os.path.exists(place)), places[0])


def _library() -> ctypes.CDLL:
    library = ctypes.CDLL(_path())
    size, void = ctypes.c_size_t, ctypes.c_void_p
    library.ipg_run.argtypes = [void, size, void, size, void, size, ctypes.POINTER(ctypes.c_uint64)]
    library.ipg_run.restype = ctypes.c_uint8
    library.ipg_names.argtypes = [void, size, void, size, ctypes.POINTER(ctypes.c_uint64)]
    library.ipg_names.restype = ctypes.c_uint8
    library.ipg_trees.argtypes = [void, size, void, size, void, size, void, size, ctypes.POINTER(ctypes.c_uint64)]
    library.ipg_trees.restype = ctypes.c_uint8
    return library


_LIBRARY = _library()
_NOTHING = ctypes.create_string_buffer(1)


class _View(ctypes.Structure):
    """Python's own record of a buffer that is lent, by which also memory that may not be written is read where it lies."""

    _fields_ = [
        ("buf", ctypes.c_void_p), ("obj", ctypes.py_object), ("len", ctypes.c_ssize_t), ("itemsize", ctypes.c_ssize_t),
        ("readonly", ctypes.c_int), ("ndim", ctypes.c_int), ("format", ctypes.c_char_p), ("shape", ctypes.c_void_p),
        ("strides", ctypes.c_void_p), ("suboffsets", ctypes.c_void_p), ("internal", ctypes.c_void_p),
    ]  # fmt: skip


class _Lender:
    """Lends bytes to a call, without a copy, until it is closed."""

    def __init__(self) -> None:
        self._views: List[_View] = []

    def __enter__(self) -> _Lender:
        return self

    def __exit__(self, *_: object) -> None:
        for view in self._views:
            ctypes.pythonapi.PyBuffer_Release(ctypes.byref(view))

    def lend(self, data: Buffer) -> _Bytes:
        view = _View()
        ctypes.pythonapi.PyObject_GetBuffer(ctypes.py_object(data), ctypes.byref(view), 0)
        self._views.append(view)
        return _Bytes(view.buf if view.len else ctypes.addressof(_NOTHING), view.len)


def run(words: Sequence[str], files: Files) -> tuple[int, bytes]:
    """Runs the command line `ipg WORDS..` over files in memory: its exit status, and its text.

    >>> run(["check", "g"], {"g": b"S -> U8 ;"})
    (0, b'accepted\\n')
    """
    with _Lender() as lender:
        told = (_Bytes * len(words))(*(lender.lend(word.encode()) for word in words))
        given = (_File * len(files))(*(_File(lender.lend(name.encode()), lender.lend(data)) for name, data in files.items()))
        size = ctypes.c_uint64(FIRST_ROOM)
        while True:
            room = ctypes.create_string_buffer(size.value)
            status = _LIBRARY.ipg_run(told, len(told), given, len(given), room, len(room), ctypes.byref(size))
            if size.value <= len(room):
                return status, room.raw[: size.value]


#: The program's.
__version__ = run(["version"], {})[1].split()[1].decode()


class _Names:
    """The names of a grammar's rules and attributes, by their numbers, and the numbers by the names."""

    __slots__ = ("rules", "attrs", "rule_numbers", "attr_numbers")

    def __init__(self, rules: Sequence[str], attrs: Sequence[str]) -> None:
        self.rules, self.attrs = tuple(rules), tuple(attrs)
        self.rule_numbers = {name: number for number, name in enumerate(self.rules)}
        self.attr_numbers = {name: number for number, name in enumerate(self.attrs)}

    def __reduce__(self) -> tuple[Any, ...]:
        return _Names, (self.rules, self.attrs)

    def rule(self, name: str) -> int:
        if name not in self.rule_numbers:
            raise KeyError(f"the grammar has no rule {name}")
        return self.rule_numbers[name]

    def attr(self, name: str) -> int:
        if name not in self.attr_numbers:
            raise KeyError(f"the grammar has no attribute {name}")
        return self.attr_numbers[name]


class _Rows:
    """The rows of a tree, the input that they have places in, and the names for their numbers."""

    __slots__ = ("raw", "data", "names", "count", "halves", "words", "values", "_heads", "_links")

    def __init__(self, raw: Buffer, data: Buffer, names: _Names) -> None:
        self.raw = memoryview(raw).toreadonly()
        self.data = data
        self.names = names
        self.count = len(self.raw) // _SIZE
        self.halves = self.raw.cast("I")
        self.words = self.raw.cast("Q")
        self.values = self.raw.cast("q")
        self._heads: bytearray | None = None
        self._links: tuple[array.array[int], array.array[int]] | None = None

    def __reduce__(self) -> tuple[Any, ...]:
        return _Rows, (bytes(self.raw), self.part(0, None), self.names)

    def part(self, start: int, end: int | None) -> bytes:
        with memoryview(self.data) as view, view.cast("B") as data:
            return bytes(data[start:end])

    def same(self, other: _Rows) -> bool:
        if self is other:
            return True
        ours, theirs = self.names, other.names
        if self.count != other.count or ours.rules != theirs.rules or ours.attrs != theirs.attrs or self.raw != other.raw:
            return False
        return self.data is other.data or self.part(0, None) == other.part(0, None)

    def heads(self) -> bytearray:
        """Two bytes of each row: its kind, and the least of its name."""
        if self._heads is None:
            heads = bytearray(2 * self.count)
            heads[0::2] = self.raw[_LEAST::_SIZE].tobytes()
            heads[1::2] = self.raw[4 * _NAME + _LEAST :: _SIZE].tobytes()
            self._heads = heads
        return self._heads

    def nodes(self, rule: int, first: int, behind: int) -> Iterator[int]:
        """The nodes of a rule, among these rows."""
        heads, halves = self.heads(), self.halves
        key = bytes((_NODE, rule & 255))
        at = heads.find(key, 2 * first, 2 * behind)
        while at >= 0:
            if not at & 1 and halves[at // 2 * _HALVES + _NAME] == rule:
                yield at // 2
            at = heads.find(key, (at | 1) + 1, 2 * behind)

    def links(self) -> tuple[array.array[int], array.array[int]]:
        """Of each row the one behind all that lies in it, and the one that it lies in. Worked out once, by the depths."""
        if self._links is None:
            ends, parents = (array.array("I", bytes(4 * self.count)) for _ in range(2))
            open_rows: List[int] = []
            for at, (kind, depth) in enumerate(zip(self.halves[_KIND::_HALVES], self.words[_DEPTH::_WORDS])):
                if kind == _ATTRIBUTE:
                    continue
                while len(open_rows) > depth:
                    ends[open_rows.pop()] = at
                if open_rows:
                    parents[at] = open_rows[-1]
                open_rows.append(at)
            for at in open_rows:
                ends[at] = self.count
            self._links = ends, parents
        return self._links

    def end(self, at: int) -> int:
        return self.links()[0][at] if at else self.count

    def attribute(self, at: int, attr: int) -> int | None:
        """The row of a node's attribute."""
        halves, count = self.halves, self.count
        at += 1
        while at < count and halves[at * _HALVES] == _ATTRIBUTE:
            if halves[at * _HALVES + _NAME] == attr:
                return at
            at += 1
        return None

    def kids(self, at: int) -> Iterator[int]:
        """The rows that lie right in one."""
        halves = self.halves
        ends, behind = self.links()[0], self.end(at)
        at += 1
        while at < behind and halves[at * _HALVES] == _ATTRIBUTE:
            at += 1
        while at < behind:
            yield at
            at = ends[at]

    def made(self, at: int) -> Kid:
        kind = self.halves[at * _HALVES]
        if kind == _NODE:
            return Node(self, at) if at else Tree(self)
        return Items(self, at) if kind >= _ARRAY else Leaf(self, at)


class _Part:
    """A row, and what lies in it. Of two trees of one input by one grammar the same parts are equal."""

    __slots__ = ("_rows", "_at")

    def __init__(self, rows: _Rows, at: int = 0) -> None:
        self._rows, self._at = rows, at

    def _half(self, which: int) -> int:
        return self._rows.halves[self._at * _HALVES + which]

    def _word(self, which: int) -> int:
        return self._rows.words[self._at * _WORDS + which]

    @property
    def name(self) -> str:
        """The name of the rule, of the primitive, or of what the items are."""
        number = self._half(_NAME)
        if self._half(_KIND) == _TERMINAL:
            return "tok"
        return self._rows.names.rules[number] if self._half(_OF) == 0 else _PRIMITIVES[number]

    @property
    def start(self) -> int:
        """The first byte of its part of the input."""
        return self._word(_FROM)

    @property
    def end(self) -> int:
        """The byte behind the last one of its part."""
        return self._word(_TO)

    @property
    def span(self) -> tuple[int, int]:
        """Both ends of its part."""
        return self.start, self.end

    @property
    def parent(self) -> Node | Items | None:
        """What it lies in; of the root None."""
        if not self._at:
            return None
        made = self._rows.made(self._rows.links()[1][self._at])
        return None if isinstance(made, Leaf) else made

    def bytes(self) -> bytes:
        """The input's bytes in its part. An input that was written to since, or closed, has others, or none."""
        return self._rows.part(*self.span)

    def __eq__(self, other: object) -> bool:
        if not isinstance(other, _Part):
            return NotImplemented
        return self._at == other._at and self._rows.same(other._rows)

    def __hash__(self) -> int:
        return hash((self._at, self.name, self.span))

    def __reduce__(self) -> tuple[Any, ...]:
        return type(self), (self._rows, self._at)


class _Holder(_Part):
    """A row in which others lie."""

    __slots__ = ()

    @property
    def kids(self) -> list[Kid]:
        """What lies right in it, in the order of the text."""
        return [self._rows.made(at) for at in self._rows.kids(self._at)]

    def __iter__(self) -> Iterator[Kid]:
        return map(self._rows.made, self._rows.kids(self._at))

    def __len__(self) -> int:
        return sum(1 for _ in self._rows.kids(self._at))

    def __bool__(self) -> bool:
        return True

    def walk(self, rule: str | None = None) -> Iterator[Node]:
        """The nodes in it, itself first where it is one, in the order of the text: all, or those of one rule.

        >>> tree = Grammar('S -> many T ;\\nT -> U8 {n = U8.val} ;').parse(b"ab")
        >>> [node["n"] for node in tree.walk("T")]
        [97, 98]
        """
        rows, at = self._rows, self._at
        if rule is not None:
            places: Iterable[int] = rows.nodes(rows.names.rule(rule), at, rows.end(at))
        else:
            kinds = rows.halves[_KIND::_HALVES]
            places = (place for place in range(at, rows.end(at)) if kinds[place] == _NODE)
        return (Node(rows, place) if place else Tree(rows) for place in places)


class Leaf(_Part):
    """A string, a number or raw bytes.

    >>> number = Grammar('S -> U16BE ;').parse(b"\\1\\2").kids[0]
    >>> number.kind, number.span, number.value
    ('U16BE', (0, 2), 258)
    """

    __slots__ = ()

    @property
    def kind(self) -> str:
        """`tok` for a string, `Bytes` for raw bytes, and a number's primitive."""
        return self.name

    @property
    def value(self) -> int | None:
        """A number's value, else None."""
        return self._half(_HIGH) << 32 | self._half(_LOW) if self._half(_KIND) == _NUMBER else None

    def __repr__(self) -> str:
        return f"<{self.kind} {self.start}..{self.end}{'' if self.value is None else f' {self.value}'}>"


class Items(_Holder):
    """The items of an array or a repetition: `kind` is `for` or `many`, `symbol` what each of them is.

    >>> items = Grammar('S -> many T ;\\nT -> U8 ;').parse(b"abc").kids[0]
    >>> items, items[-1], len(items)
    (<many T x 3>, <T 2..3>, 3)
    """

    __slots__ = ("_places",)

    @property
    def kind(self) -> str:
        """`for` of an array, `many` of a repetition."""
        return "for" if self._half(_KIND) == _ARRAY else "many"

    @property
    def symbol(self) -> str:
        """What each item is."""
        return self.name

    def _known(self) -> array.array[int]:
        """The rows of the items, once they were asked for."""
        try:
            return self._places
        except AttributeError:
            self._places: array.array[int] = array.array("I", self._rows.kids(self._at))
            return self._places

    def __len__(self) -> int:
        return len(self._known())

    @overload
    def __getitem__(self, at: int) -> Kid: ...

    @overload
    def __getitem__(self, at: slice) -> list[Kid]: ...

    def __getitem__(self, at: int | slice) -> Kid | list[Kid]:
        if isinstance(at, slice):
            return [self._rows.made(place) for place in self._known()[at]]
        return self._rows.made(self._known()[at])

    def __repr__(self) -> str:
        return f"<{self.kind} {self.name} x {len(self)}>"


class Node(_Holder):
    """A rule on a part of the input. `node["size"]` is an attribute, whatever its name; `node.size` is short for it where the name isn't one of
    these: `attrs`, `bytes`, `column`, `kids`, `name`, `parent`, `rows`, `rule`, `span`, `touched`, `walk`. `node[0]` is the first of `kids`.

    >>> node = Grammar('S -> U8 {count = U8.val} {rule = 7} ;').parse(b"a")
    >>> node.rule, node["rule"], node.count, node.attrs
    ('S', 7, 97, {'count': 97, 'rule': 7})
    """

    __slots__ = ()

    @property
    def rule(self) -> str:
        """The rule's name."""
        return self.name

    @property
    def touched(self) -> tuple[int, int]:
        """The first byte that it touched, and the one behind the last."""
        return self._word(_START), self._word(_END)

    @property
    def attrs(self) -> dict[str, int]:
        """The attributes by their names, in the order of the text."""
        rows, at, told = self._rows, self._at + 1, {}
        while at < rows.count and rows.halves[at * _HALVES] == _ATTRIBUTE:
            told[rows.names.attrs[rows.halves[at * _HALVES + _NAME]]] = rows.values[at * _WORDS + _VALUE]
            at += 1
        return told

    def _attribute(self, name: str) -> int | None:
        number = self._rows.names.attr_numbers.get(name)
        at = None if number is None else self._rows.attribute(self._at, number)
        return None if at is None else self._rows.values[at * _WORDS + _VALUE]

    @overload
    def __getitem__(self, key: str) -> int: ...

    @overload
    def __getitem__(self, key: int) -> Kid: ...

    @overload
    def __getitem__(self, key: slice) -> list[Kid]: ...

    def __getitem__(self, key: str | int | slice) -> int | Kid | list[Kid]:
        if not isinstance(key, str):
            return self.kids[key]
        value = self._attribute(key)
        if value is None:
            raise KeyError(key)
        return value

    def __getattr__(self, name: str) -> int:
        value = self._attribute(name) if name[:2] != "__" else None
        if value is None:
            raise AttributeError(f"{self.rule} has no attribute {name}")
        return value

    def __repr__(self) -> str:
        return f"<{self.rule} {self.start}..{self.end}{''.join(f' {name}={value}' for name, value in self.attrs.items())}>"


class Tree(Node):
    """The root, and with it the whole tree. It keeps its input alive, which isn't copied."""

    __slots__ = ()

    def rows(self) -> memoryview:
        """The rows as the library wrote them, one of 72 bytes each: `numpy.frombuffer(tree.rows(), ipg.ROW)`.

        >>> len(Grammar('S -> U8 ;').parse(b"a").rows()) // ROW["itemsize"]
        2
        """
        return self._rows.raw

    def column(self, rule: str, attr: str) -> array.array[int]:
        """The values of an attribute, of each node of a rule that has it, in the order of the text. `numpy.asarray` takes them without a copy.

        >>> Grammar('S -> many T ;\\nT -> U8 {n = U8.val} ;').parse(b"abc").column("T", "n")
        array('q', [97, 98, 99])
        """
        rows, number = self._rows, self._rows.names.attr(attr)
        heads, halves, values, told = rows.heads(), rows.halves, rows.values, array.array("q")
        ahead, between = 1, bytes((_ATTRIBUTE,))
        for at in rows.nodes(rows.names.rule(rule), 0, rows.count):
            place = at + ahead
            # mostly it stands as far behind its node as the last one did, and all between are attributes too
            if heads[2 * at + 2 : 2 * place + 2 : 2] != between or halves[place * _HALVES + _NAME] != number:
                found = rows.attribute(at, number)
                if found is None:
                    continue
                place, ahead = found, found - at
                between = bytes((_ATTRIBUTE,)) * ahead
            told.append(values[place * _WORDS + _VALUE])
        return told


Kid = Union[Node, Leaf, Items]


# room for rows that is given at first: for each byte of the inputs, for small ones, and at most
_EACH, _FEW, _MOST = 4, 1 << 10, 1 << 24
# larger rooms are mapped, so that what isn't filled takes no memory
_MAPPED = 1 << 20
# as many bytes of inputs go into one call of `parse_each`
_WINDOW = 1 << 22

Room = Union[bytearray, mmap.mmap]


def _room(count: int) -> Room:
    size = max(count, 1) * _SIZE
    if size < _MAPPED or not hasattr(mmap, "MAP_PRIVATE"):
        return bytearray(size)
    try:
        return mmap.mmap(-1, size, flags=mmap.MAP_PRIVATE | mmap.MAP_ANONYMOUS)
    except OSError:
        # a second call will ask for what is needed
        return bytearray(min(size, _MAPPED))


def _filled(room: Room, size: int) -> memoryview:
    """What was filled of a room, the rest of which is given back."""
    if isinstance(room, bytearray):
        del room[size:]
    elif size:
        try:
            room.resize(size)
        except (OSError, SystemError, ValueError):
            pass
    return memoryview(room)[:size]


def _parsed(given: Buffer, inputs: Sequence[Buffer]) -> tuple[ctypes.Array[_Answer], memoryview]:
    """What each input comes to by a grammar, and the rows of all trees."""
    with _Lender() as lender:
        grammar = lender.lend(given)
        told = (_Bytes * len(inputs))(*map(lender.lend, inputs))
        answers = (_Answer * len(inputs))()
        length = ctypes.c_uint64()
        wanted = min(_FEW + _EACH * sum(one.size for one in told), _MOST)
        while True:
            room = _room(wanted)
            count = len(room) // _SIZE
            held = (ctypes.c_char * 1).from_buffer(room)
            status = _LIBRARY.ipg_trees(
                grammar.at, grammar.size, told, len(told), answers, len(answers), ctypes.addressof(held), count, ctypes.byref(length)
            )
            del held
            if status:
                raise _error(status)
            if length.value <= count:
                return answers, _filled(room, length.value * _SIZE)
            wanted = length.value


def _windows(inputs: Iterable[Buffer], window: int) -> Iterator[list[Buffer]]:
    """The inputs, so many at a time, or fewer where they are large."""
    batch: List[Buffer] = []
    size = 0
    for data in inputs:
        batch.append(data)
        size += len(data)
        if len(batch) >= window or size >= _WINDOW:
            yield batch
            batch, size = [], 0
    if batch:
        yield batch


def _named(given: Buffer) -> _Names:
    """The names of a grammar."""
    with _Lender() as lender:
        grammar = lender.lend(given)
        size = ctypes.c_uint64(FIRST_ROOM)
        while True:
            room = ctypes.create_string_buffer(size.value)
            status = _LIBRARY.ipg_names(grammar.at, grammar.size, room, len(room), ctypes.byref(size))
            if status:
                raise _error(status)
            if size.value <= len(room):
                break
    rules, _, attrs = room.raw[: size.value].decode("utf-8", "surrogateescape").partition("\n\n")
    return _Names(rules.split("\n"), attrs.split("\n")[:-1] if attrs.endswith("\n") else attrs.split("\n"))


class Grammar:
    """A grammar by which parsing always ends: its text was checked when it was made. `name` is what pages of `explain` call it.

    It may be shared by threads, pickled, and used as a context: once that is left, it parses no more.

    >>> with Grammar('S -> many T ;\\nT -> U8 ;', name="letters.ipg") as grammar:
    ...     grammar.rules, grammar.parse(b"ab")
    (('S', 'T'), <S 0..2>)
    """

    def __init__(self, text: str | bytes, name: str = "grammar") -> None:
        self._name = name
        self._files: Dict[str, Buffer] = {name: text.encode() if isinstance(text, str) else text}
        self._given: Buffer = self._files[name]
        self._open()

    def _open(self) -> None:
        self._closed = False
        try:
            self._names = _named(self._given)
        except Error as error:
            self._refuse(error)

    def _refuse(self, error: Error) -> NoReturn:
        """Says why the grammar is refused."""
        status, text = run(["explain", self._name], self._files)
        told = text.decode("utf-8", "replace").rstrip("\n")
        raise GrammarError(status, told) if status == 2 else _error(status or error.status, told) from None

    def __reduce__(self) -> tuple[Any, ...]:
        return Grammar, (bytes(self._given), self._name)

    def __repr__(self) -> str:
        return f"<Grammar {self._name}>"

    def __enter__(self) -> Grammar:
        return self

    def __exit__(self, *_: object) -> None:
        self.close()

    def close(self) -> None:
        """Parses no more. Trees stay."""
        self._closed = True

    def _standing(self) -> Dict[str, Buffer]:
        if self._closed:
            raise ValueError("the grammar is closed")
        return self._files

    @property
    def name(self) -> str:
        """Its name."""
        return self._name

    @property
    def rules(self) -> tuple[str, ...]:
        """The names of the rules, the first one first."""
        return self._names.rules

    def _made(self, status: int, rows: Buffer, data: Buffer) -> Tree | Error:
        if status == 0:
            return Tree(_Rows(rows, data, self._names))
        error = _error(status)
        return error._told(self._name, {**self._files, "input": data}) if isinstance(error, _Failed) else error

    def parse(self, data: Buffer) -> Tree:
        """The tree of the bytes. Raises NoParse, OutOfRange, OutOfMemory or TooLarge."""
        self._standing()
        answers, rows = _parsed(self._given, [data])
        made = self._made(answers[0].status, rows, data)
        if isinstance(made, Error):
            raise made
        return made

    def _parsed_singly(self, data: Buffer) -> Tree | Error:
        try:
            return self.parse(data)
        except Error as error:
            return error

    def _batch(self, batch: Sequence[Buffer]) -> Iterator[Tree | Error]:
        self._standing()
        try:
            answers, rows = _parsed(self._given, batch)
        except OutOfMemory:
            # together they took more than there is
            yield from map(self._parsed_singly, batch)
            return
        at = 0
        for answer, data in zip(answers, batch):
            size = answer.rows * _SIZE
            # a copy, so that a tree that is kept keeps no others
            yield self._made(answer.status, bytes(rows[at : at + size]), data)
            at += size

    def parse_each(self, inputs: Iterable[Buffer], window: int = 256) -> Iterator[Tree | Error]:
        """The trees of many inputs, in their order. So many of them are taken at a time, or fewer where they are large; the grammar is checked
        once for these. An input without a tree has its error in place.

        >>> [str(each) for each in Grammar('S -> "a" ;').parse_each([b"a", b"b"])]
        ['<S 0..1>', 'no parse at byte 0, in S, grammar:1:6']
        """
        for batch in _windows(inputs, window):
            yield from self._batch(batch)

    def table(self) -> bytes:
        """The grammar as a table file, which `ipg load` reads without checking the grammar again.

        >>> Grammar('S -> "a" ;').table()[:4]
        b'ipgt'
        """
        self._standing()
        status, text = run(["table", self._name], self._files)
        if status:
            raise _error(status, text.decode("utf-8", "replace").rstrip("\n"))
        return text

    def _done(self, words: Sequence[str], data: Buffer) -> bytes:
        files = {**self._standing(), "input": data}
        status, text = run([words[0], self._name, "input", *words[1:]], files)
        if status:
            error = _error(status, text.decode("utf-8", "replace").rstrip("\n"))
            raise error._told(self._name, files) if isinstance(error, _Failed) else error
        return text

    def query(self, data: Buffer, path: str) -> list[int | tuple[int, int]]:
        """What the path picks of the tree: values, and the two ends of parts.

        >>> Grammar('S -> U8 {n = U8.val} Bytes ;').query(b"abc", "**.n")
        [97]
        """
        lines = [line.split() for line in self._done(["query", path], data).decode().splitlines()]
        return [int(line[0]) if len(line) == 1 else (int(line[0]), int(line[1])) for line in lines]

    def view(self, data: Buffer) -> str:
        """The tree beside the bytes, for a person."""
        return self._done(["view"], data).decode()

    def explain(self, data: Buffer) -> str:
        """The page of `ipg explain`: what the bytes come to, and where the parse failed furthest."""
        return run(["explain", self._name, "input"], {**self._standing(), "input": data})[1].decode("utf-8", "replace")


class _Builtin(Grammar):
    def __init__(self, name: str) -> None:
        self._name = f"@{name}"
        self._files = {}
        self._given = self._name.encode()
        self._open()

    def __reduce__(self) -> tuple[Any, ...]:
        return builtin, (self._name[1:],)


_BUILTIN = ("elf", "gif", "pcap", "pe")
# formats without a mark of their own, and formats that another is a kind of: a file is tried by these last, in this order
_LAST = ("riff", "fat", "mbr", "tls", "dns", "der", "ber", "cbor", "msgpack", "utf8")


def _folder() -> str:
    """Where the grammars of formats are: beside this file, in the repository, or below the PREFIX of an installed `PREFIX/lib/pythonX.Y/..`."""
    here = os.path.dirname(os.path.abspath(__file__))
    ups = ((), ("..", "..", ".."), ("..", "..", "..", "..", "share", "ipg"))
    places = [os.path.join(here, *up, "formats") for up in ups]
    return next((place for place in places if os.path.isdir(place)), places[0])


def formats() -> list[str]:
    """The names of the grammars that come with the package.

    >>> {"elf", "gif", "pcap", "pe"} <= set(formats())
    True
    """
    try:
        names = [name[:-4] for name in os.listdir(_folder()) if name.endswith(".ipg")]
    except OSError:
        names = []
    return sorted([*_BUILTIN, *names])


def builtin(name: str) -> Grammar:
    """A grammar that comes with the package, by its name in `formats()`.

    >>> builtin("gif").parse(b"GIF89a\\1\\0\\1\\0\\0\\0\\0;").rule
    'Gif'
    """
    if name in _BUILTIN:
        return _Builtin(name)
    if name not in formats():
        raise ValueError(f"no grammar of that name comes with the package: {name}")
    with builtins.open(os.path.join(_folder(), f"{name}.ipg"), "rb") as file:
        return Grammar(file.read(), name=f"{name}.ipg")


def _first_to_last() -> list[str]:
    return [name for name in formats() if name not in _LAST] + [name for name in _LAST if name in formats()]


def _known(path: str | os.PathLike[str]) -> tuple[Grammar, Tree]:
    """The first grammar that has a tree of a file, and the tree."""
    with builtins.open(path, "rb") as file:
        data = file.read()
    for name in _first_to_last():
        try:
            grammar = builtin(name)
            return grammar, grammar.parse(data)
        except (NoParse, OutOfRange):
            continue
    raise NoParse(1, f"no grammar that comes with the package has a tree of {os.fspath(path)}")


def open(path: str | os.PathLike[str]) -> Tree:
    """The tree of a file, by the first of the grammars of `formats()` that it has one by; those of formats without a mark are tried last.

    >>> open(sys.executable).rule
    'Elf'
    """
    return _known(path)[1]


def view(path: str | os.PathLike[str]) -> str:
    """That tree beside the bytes, for a person; behind a line that names the grammar.

    >>> print(view(sys.executable)[:4])
    @elf
    """
    grammar, tree = _known(path)
    return f"{grammar.name}\n{grammar.view(tree.bytes())}"
