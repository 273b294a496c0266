"""A second reader of table files, written from docs/TABLE.md and docs/CERTIFICATE.md: what `load` refuses of them.

  table_files.py FILE..                    for each file its refusal, `L1 Magic` to `L6 Proof I`, or `None`
  table_files.py against COMMAND [all]     holds it against the program: prefixes of two table files, changes of a byte and random ones; `all`
                                           takes every change of a small file's byte and 20,000 random ones
"""

import os
import random
import subprocess
import sys
import tempfile
from concurrent.futures import ThreadPoolExecutor

import second_checker
from random_grammars import Array, Grammar, Many, Refused, Rule, Set, Slot, Switch, Test, symbols, term_mentions

MAGIC = b"ipgtab1\n"
DEEPEST = 400


class Refusal(Exception):
    """What a table file is refused with."""


class Fault(Exception):
    """No body begins with the bytes up to and including the one at this place."""


class Body:
    def __init__(self, data):
        self.data, self.at = data, 0

    def take(self, count):
        if len(self.data) - self.at < count:
            raise Fault(len(self.data))
        self.at += count
        return self.data[self.at - count:self.at]

    def number(self, width):
        return int.from_bytes(self.take(width), "little")

    def tag(self, limit):
        value = self.take(1)[0]
        if value >= limit:
            raise Fault(self.at - 1)
        return value

    def name(self):
        return self.take(self.number(8))

    def listed(self, item):
        items = []
        for _ in range(self.number(8)):
            items.append(item())
        return items

    def symbol(self):
        kind = self.tag(3)
        if kind == 0:
            return ("text", self.name())
        return ("number", self.tag(8)) if kind == 1 else ("rule", self.number(4))

    def field(self):
        kind = self.tag(3)
        return ("attribute", self.number(4)) if kind == 0 else ("end", kind)

    def expression(self, depth=1):
        kind = self.tag(6 if depth == DEEPEST else 14)
        part = lambda: self.expression(depth + 1)
        if kind == 0:
            return (kind, int.from_bytes(self.take(8), "little", signed=True))
        if kind in (2, 3):
            return (kind, self.number(4))
        if kind in (1, 4):
            return (kind,)
        if kind == 5:
            return (kind, self.number(4), self.symbol(), self.field())
        if kind == 6:
            return (kind, self.number(4), part(), self.field())
        if kind == 7:
            return (kind, self.number(4), part())
        if kind in (8, 9):
            return (kind, part())
        if kind == 10:
            return (kind, self.tag(16), part(), part())
        if kind in (11, 12):
            return (kind, part(), part())
        return (kind, part(), part(), part())

    def slot(self):
        return (self.symbol(), self.expression(), self.expression())

    def term(self):
        kind = self.tag(6)
        if kind == 0:
            return (kind, self.slot())
        if kind == 1:
            return (kind, self.number(4), self.expression())
        if kind == 2:
            return (kind, self.expression())
        if kind == 3:
            return (kind, self.expression(), self.expression(), self.symbol(), self.expression(), self.expression())
        if kind == 4:
            return (kind, self.listed(lambda: (self.expression(), self.slot())), self.slot())
        return (kind, self.symbol(), self.expression(), self.expression())

    def rule(self):
        name = self.name()
        holder = (self.number(4), self.number(4)) if self.tag(2) else None
        return (name, holder, self.listed(lambda: self.listed(self.term)))

    def core(self):
        names = self.listed(self.name)
        rules = self.listed(self.rule)
        if self.at < len(self.data):
            raise Fault(self.at)
        return names, rules


def body_of(file):
    """The bytes of a table file's body, its names and its rules, and the bytes behind it; else `L1`, `L2` or `L3 AT` is raised."""
    if file[:8] != MAGIC:
        raise Refusal("L1 Magic")
    if len(file) < 16 or int.from_bytes(file[8:16], "little") > len(file) - 16:
        raise Refusal("L2 Length")
    ends = 16 + int.from_bytes(file[8:16], "little")
    try:
        names, rules = Body(file[16:ends]).core()
    except Fault as fault:
        raise Refusal("L3 Body %d" % fault.args[0])
    return names, rules, file[ends:]


# ---- the grammar, as the second checker has it

PRIMITIVES = ["U8", "U16LE", "U16BE", "U32LE", "U32BE", "U64LE", "U64BE", "Bytes"]
OPERATORS = ["+", "-", "*", "/", "%", "<<", ">>", "&", "|", "^", "==", "!=", "<", "<=", ">", ">="]
ENDS = {1: "start", 2: "end"}


class Table(Grammar):
    """The grammar of a table file. A rule is known by its number, `("rule", N)`."""

    def __init__(self, names, rules):
        self.names = names
        self.entries = [(Rule(name.decode("latin-1"), alts), holder) for name, holder, alts in rules]
        self.numbers = {("rule", r): r for r in range(len(rules))}
        self.alts = [[[self.term(t) for t in terms] for terms in alts] for _, _, alts in rules]
        if not self.is_well_formed():
            raise Refusal("L4 NotGood")
        try:
            self.orders = [[self.order(r, a, terms) for a, terms in enumerate(alts)] for r, alts in enumerate(self.alts)]
        except Refused:
            raise Refusal("L4 NotGood")

    def symbol(self, sym):
        kind, what = sym
        return what if kind == "text" else PRIMITIVES[what] if kind == "number" else sym

    def shown(self, what):
        return what if isinstance(what, str) else self.entries[what[1]][0].name if what[0] == "rule" else what[1]

    def attribute(self, number):
        """An attribute by its name, apart from `start` and `end`; by its number where it has no name."""
        if number >= len(self.names):
            return number
        name = self.names[number].decode("latin-1")
        return ("named", name) if name in ENDS.values() else name

    def field(self, field):
        kind, what = field
        return ENDS[what] if kind == "end" else self.attribute(what)

    def expression(self, e):
        kind, *parts = e
        if kind in (1, 4):
            return ("eoi",) if kind == 1 else ("loop",)
        if kind == 0:
            return "num", parts[0]
        if kind in (2, 3):
            return "own" if kind == 2 else "outer", self.attribute(parts[0])
        if kind == 5:
            return "seen", parts[0], self.symbol(parts[1]), self.field(parts[2])
        if kind == 6:
            return "item", parts[0], self.expression(parts[1]), self.field(parts[2])
        if kind == 7:
            return "after", parts[0], self.expression(parts[1])
        if kind == 10:
            return OPERATORS[parts[0]], self.expression(parts[1]), self.expression(parts[2])
        return ({8: "-", 9: "!", 11: "&&", 12: "||", 13: "?"}[kind],) + tuple(map(self.expression, parts))

    def slot(self, slot):
        return Slot(self.symbol(slot[0]), (self.expression(slot[1]), self.expression(slot[2])))

    def term(self, term):
        kind, *parts = term
        if kind == 0:
            return self.slot(parts[0])
        if kind == 1:
            return Set(self.attribute(parts[0]), self.expression(parts[1]))
        if kind == 2:
            return Test(self.expression(parts[0]))
        if kind == 4:
            return Switch([(self.expression(c), self.slot(s)) for c, s in parts[0]], self.slot(parts[1]))
        first, last = map(self.expression, parts[:2]) if kind == 3 else (None, None)
        sym, *place = parts[2:] if kind == 3 else parts
        place = tuple(map(self.expression, place))
        return Array(None, first, last, self.symbol(sym), place) if kind == 3 else Many(self.symbol(sym), place)

    # -- whether it is well formed

    def holder_of(self, r):
        return self.entries[r][1]

    def is_global(self, at):
        return at[0] < len(self.alts) and at[1] < len(self.alts[at[0]]) and self.holder_of(at[0]) is None

    def is_well_formed(self):
        holders = [holder for _, holder in self.entries]
        return (0 < len(self.alts) <= 1024 and holders[0] is None and all(h is None or self.is_global(h) for h in holders)
                and len(set(self.names)) == len(self.names) and all(map(self.is_good_rule, range(len(self.alts)))))

    def is_good_rule(self, r):
        return 0 < len(self.alts[r]) <= 64 and all(self.is_good_alternative(r, a) for a in range(len(self.alts[r])))

    def is_good_alternative(self, r, a):
        terms = self.alts[r][a]
        attrs = [term.attr for term in terms if isinstance(term, Set)]
        return (0 < len(terms) <= 256 and len(set(attrs)) == len(attrs) and not any(isinstance(attr, int) for attr in attrs)
                and all(self.is_good_term(r, a, u) for u in range(len(terms))))

    def is_good_term(self, r, a, u):
        term = self.alts[r][a][u]
        if isinstance(term, (Array, Many)) and isinstance(term.sym, bytes):
            return False
        return all(self.is_callable(r, a, s) for s in symbols(term)) and all(self.is_good_mention(r, a, u, m) for m in term_mentions(term))

    def is_rule(self, sym):
        return sym in self.numbers or not isinstance(sym, tuple)

    def is_callable(self, r, a, sym):
        if not isinstance(sym, tuple):
            return True
        return sym in self.numbers and self.holder_of(sym[1]) in (None, (r, a), self.holder_of(r))

    def is_good_mention(self, r, a, u, m):
        terms, kind = self.alts[r][a], m[0]
        if kind in ("seen", "item", "after") and m[1] >= len(terms):
            return False
        if kind in ("seen", "item") and isinstance(m[3], int):
            return False
        if kind == "seen":
            return isinstance(terms[m[1]], (Slot, Switch)) and self.is_rule(m[2])
        if kind in ("item", "after"):
            return isinstance(terms[m[1]], (Array, Many)) and (kind == "item" or m[1] != u)
        at = (r, a) if kind == "own" else self.holder_of(r) if kind == "outer" else None
        if kind in ("own", "outer"):
            return at is not None and any(isinstance(t, Set) and t.attr == m[1] for t in self.alts[at[0]][at[1]])
        return True


def loaded(file):
    """The grammar of a table file; else what `load` refuses it with is raised."""
    names, rules, text = body_of(file)
    grammar = Table(names, rules)
    try:
        faulty = second_checker.faulty_entry(grammar, second_checker.Certificate(text))
    except second_checker.CertText as fault:
        raise Refusal("L5 CertText %d" % fault.args)
    if faulty is not None:
        raise Refusal("L6 Proof %d" % faulty)
    return grammar


def refusal_of(file):
    """What `load` refuses the file with, or None where it goes on."""
    try:
        loaded(file)
    except Refusal as refusal:
        return refusal.args[0]
    return None


# ---- against the program

def changes_of(file, every):
    """Each byte changed, to all other values or to some."""
    for at, byte in enumerate(file):
        for other in range(256) if every else {0, 255, byte ^ 1, (byte + 1) % 256}:
            if other != byte:
                yield file[:at] + bytes([other]) + file[at + 1:]


def random_changes(file, count, rng):
    """Some bytes changed, left out or doubled."""
    for _ in range(count):
        changed = bytearray(file)
        for _ in range(rng.randrange(1, 4)):
            at = rng.randrange(len(changed))
            how = rng.randrange(4)
            if how < 2:
                changed[at] = rng.randrange(256)
            else:
                part = changed[at:at + rng.randrange(1, 16)]
                changed[at:at + (len(part) if how == 2 else 0)] = b"" if how == 2 else part
        yield bytes(changed)


def answered(command, folder, number, file):
    """The status of `load`, what it says, and its greatest memory in KiB."""
    name = os.path.join(folder, "t%d" % number)
    with open(name, "wb") as out:
        out.write(file)
    with open(os.path.join(folder, "out%d" % number), "w+b") as said:
        child = subprocess.Popen(command + ["load", name, os.path.join(folder, "input")], stdout=said)
        _, status, usage = os.wait4(child.pid, 0)
        said.seek(0)
        return os.waitstatus_to_exitcode(status), said.read(200), usage.ru_maxrss


def differs(command, folder, number, file):
    status, said, memory = answered(command, folder, number, file)
    due = refusal_of(file)
    if memory > 200 * 1024:
        return "%d KiB of memory" % memory
    if due is None:
        return None if status in (0, 1, 3) else "status %d, where nothing is refused" % status
    wanted = b"refused %s\n" % due.encode()
    return None if (status, said) == (9, wanted) else "status %d and %r, where %s is due" % (status, said, due)


def hold(command, what, files):
    """Tells what differs of the files, and gives whether something does."""
    files = list(files)
    with tempfile.TemporaryDirectory() as folder, ThreadPoolExecutor(2) as pool:
        with open(os.path.join(folder, "input"), "wb") as out:
            out.write(b"ab")
        found = list(pool.map(lambda n: differs(command, folder, n, files[n]), range(len(files))))
    wrong = [(file, why) for file, why in zip(files, found) if why is not None]
    for file, why in wrong[:5]:
        print("tables: %s: %s: %s" % (what, why, file[:400].hex()))
    print("tables: %d %s, %d differ" % (len(files), what, len(wrong)))
    return len(wrong) > 0


def table_of(command, grammar):
    return subprocess.run(command + ["table", grammar], stdout=subprocess.PIPE, check=True).stdout


def against(command, every):
    rng = random.Random(1)
    with tempfile.NamedTemporaryFile(suffix=".ipg") as text:
        text.write(b'S -> "ab"[0, 2] ;')
        text.flush()
        small = table_of(command, text.name)
    gif = table_of(command, "@gif")
    failed = hold(command, "prefixes", [file[:n] for file in (small, gif) for n in range(len(file) + 1)])
    failed |= hold(command, "changes of a byte", changes_of(small, every))
    for name in ("@elf", "@pcap"):
        failed |= hold(command, "random changes of " + name, random_changes(table_of(command, name), 10000 if every else 150, rng))
    return int(failed)


def main():
    if sys.argv[1] == "against":
        return against([os.path.abspath(sys.argv[2])], sys.argv[3:] == ["all"])
    for path in sys.argv[1:]:
        with open(path, "rb") as f:
            print(path, refusal_of(f.read()))
    return 0


if __name__ == "__main__":
    sys.setrecursionlimit(20000)
    sys.exit(main())
