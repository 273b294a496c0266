"""Random bodies of table files whose references carry any symbol: what `load` says against the second reader and an evaluator,
which were written from docs/TABLE.md, docs/CERTIFICATE.md and docs/MEANING.md.

  random_tables.py COMMAND [COUNT [SEED]]

References of a body read any term by any symbol, also a field that isn't there, the term that they stand in, and the loop variable.
Its certificate refutes a call or a cycle by two facts at most; where more are needed it proves nothing. The evaluator is itself
held to answers from outside. Ends with status 1 where something differs, or a kind of answer or of reference never comes.
"""

import json
import os
import random
import sys
import tempfile
from collections import Counter
from concurrent.futures import ThreadPoolExecutor
from types import SimpleNamespace

from random_grammars import LEVEL, WIDTHS, Array, Many, Parse, Program, Rule, Run, Set, Slot, Switch, Test, TooLong, random_input, symbols
from second_checker import DEEPEST, Any, cycles_of, edges_of, keep, root
from table_files import MAGIC, Refusal, Table, body_of, loaded, random_changes
from table_writer import PRIMITIVES, Body, number, u32

HERE = os.path.dirname(os.path.abspath(__file__))
# the names of attributes; and the name of a rule and an attribute that no list has
NAMES = ["n", "val", "hi", "lo", "start"]
GONE = "gone"


# ---- bodies

class Alternative:
    """Makes the terms of an alternative; an expression refers by any symbol to what stands before it."""

    def __init__(self, rng, callees, rules, outer):
        self.rng, self.callees, self.outer = rng, callees, outer
        self.syms = [*PRIMITIVES, b"", b"ab", *rules]
        self.terms = []
        attrs = rng.sample(NAMES, rng.randrange(3))
        for _ in range(rng.randint(1, 4) + len(attrs)):
            self.terms.append(self.term(attrs))

    def often(self, chance):
        return self.rng.random() < chance

    def pick(self, *choices):
        return self.rng.choice(choices)

    def term(self, attrs):
        kind = self.rng.random()
        if attrs and kind < 0.3:
            attr = attrs.pop()
            return Set(attr, ("own", attr) if self.often(0.05) else self.expression())
        if kind < 0.35:
            return Test(self.expression())
        if kind < 0.45:
            return Array(None, ("num", 0), self.pick(("num", 2), ("eoi",), self.expression(1)), self.callee(), self.place(True))
        if kind < 0.52:
            return Many(self.callee(), self.place())
        if kind < 0.75:
            return Switch([(self.expression(1), self.slot()) for _ in range(self.pick(1, 1, 2))], self.slot())
        return self.slot()

    def callee(self):
        if self.callees and self.often(0.5):
            return self.rng.choice(self.callees)
        return self.pick("U8", "U8", "U8", "U16LE", "Bytes") if self.often(0.7) else self.rng.choice(PRIMITIVES)

    def slot(self):
        return Slot(self.pick(b"", b"a", b"a", b"ab") if self.often(0.2) else self.callee(), self.place())

    def place(self, has_loop=False):
        """Behind the slot or switch before, mostly, and up to the end of the part."""
        behind = [v for v, term in enumerate(self.terms) if isinstance(term, (Slot, Switch))]
        left = self.seen(behind[-1], "end") if behind and self.often(0.8) else ("num", 0)
        if has_loop and self.often(0.7):
            left = "+", left, ("loop",)
        left = left if self.often(0.9) else self.expression(1)
        return left, ("eoi",) if self.often(0.8) else ("+", left, self.expression(1))

    def expression(self, depth=2):
        kind = self.rng.random()
        if kind < 0.5:
            return self.reference()
        if depth == 0 or kind < 0.75:
            return self.pick(("eoi",), *[("num", n) for n in (0, 0, 1, 1, 2, 3)])
        if kind < 0.8:
            return "+", ("num", self.pick(2 ** 63 - 1, -2 ** 63)), self.expression(depth - 1)
        if kind < 0.85:
            return self.pick("-", "!"), self.expression(depth - 1)
        if kind < 0.9:
            return "?", self.expression(depth - 1), self.expression(depth - 1), self.expression(depth - 1)
        return self.pick("+", "-", "==", *LEVEL), self.expression(depth - 1), self.expression(depth - 1)

    def reference(self):
        """What a term has, mostly of one before; an attribute of the holder; the loop variable, be it there or not."""
        if self.often(0.03):
            return ("loop",) if self.often(0.3) else self.seen(len(self.terms) + self.pick(0, 0, 1))
        if self.outer and self.often(0.2):
            return "outer", self.rng.choice(self.outer)
        v = self.rng.randrange(len(self.terms)) if self.terms else None
        term = self.terms[v] if self.terms else None
        if isinstance(term, Set):
            return "own", term.attr
        if isinstance(term, (Array, Many)):
            index = "num", self.rng.randrange(2)
            return self.pick(("item", v, index, self.field(term.sym)), ("after", v, index))
        return self.seen(v) if isinstance(term, (Slot, Switch)) else ("eoi",)

    def seen(self, v, field=None):
        sym = self.pick(*symbols(self.terms[v])) if v < len(self.terms) else "U8"
        read_by = sym if self.often(0.15) else GONE if self.often(0.005) else self.rng.choice(self.syms)
        return "seen", v, read_by, field or self.field(sym)

    def field(self, sym):
        """Mostly a field that what is called has."""
        has = ["n"] if sym not in WIDTHS else ["val"] if WIDTHS[sym] < 8 else ["hi", "lo"]
        return self.pick("start", "end", "end", *has) if self.often(0.95) else self.pick(*NAMES, *[GONE] * self.often(0.05))


class RandomBody(Body):
    """One to three rules, the later ones at times local to the first alternative; in most bodies calls go to later rules alone."""

    def __init__(self, rng):
        self.names, rules = NAMES, ["R0", "R1", "R2"][:rng.randint(1, 3)]
        holders = [None] + [rng.choice([None, None, (0, 0)]) for _ in rules[1:]]
        forward, alts = rng.random() < 0.75, []
        for r, holder in enumerate(holders):
            outer = [term.attr for term in alts[0][0] if isinstance(term, Set)] if holder else []
            alts.append([])
            for a in range(rng.randint(1, 2)):
                callees = [rules[c] for c in range(r + 1 if forward else 0, len(rules)) if holders[c] in (None, (r, a), holder)]
                alts[r].append(Alternative(rng, callees, rules, outer).terms)
        numbers = {rule: r for r, rule in enumerate([*rules, GONE])}
        entries = [(Rule(name, None), holder) for name, holder in zip(rules, holders)]
        self.grammar = SimpleNamespace(entries=entries, alts=alts, numbers=numbers)

    def attribute(self, text):
        return u32(len(self.names)) if text == GONE else super().attribute(text)


# ---- certificates

def refutation(formulas):
    """The words of a Combine of one fact or two, or None."""
    greatest = {}
    for n, fact in enumerate(root(formulas)[0]):
        if not isinstance(fact, Any):
            key = frozenset(fact.factors.items())
            greatest[key] = max(greatest.get(key, (fact.constant, n)), (fact.constant, n))
    for key, (constant, n) in greatest.items():
        if not key and constant > 0:
            return "c 1 1 %d" % n
        opposite = greatest.get(frozenset((v, -factor) for v, factor in key)) if key else None
        if opposite is not None and constant + opposite[0] > 0:
            return "c 2 1 %d 1 %d" % (n, opposite[1])
    return None


def certificate_of(grammar):
    edges, marks = edges_of(grammar), grammar.must_touch()
    formulas = [keep(grammar, marks, edge) for edge in edges] if any(cycles_of(edges, {})) else []
    found = [refutation([formula]) for formula in formulas]
    dead = {n: words for n, words in enumerate(found) if words is not None}
    cycles = list(cycles_of(edges, dead))
    lines = ["ipgcert 2", "dead %d" % len(dead)] + ["%d %s" % entry for entry in dead.items()] + ["cycles %d" % len(cycles)]
    for cycle in cycles:
        words = refutation([formulas[n] for n in cycle]) or "c 1 1 0"
        lines.append(" ".join(map(str, [len(cycle), *cycle, words])))
    return "".join(line + "\n" for line in lines).encode()


def random_file(rng):
    """A table file, some of them with changed bytes."""
    body = RandomBody(rng).written()
    file = MAGIC + number(len(body), 8) + body
    try:
        file += certificate_of(Table(*body_of(file)[:2]))
    except Refusal:
        file += b"ipgcert 2\ndead 0\ncycles 0\n"
    return next(random_changes(file, 1, rng)) if rng.random() < 0.05 else file


# ---- answers

# reads by another symbol than that of what was parsed, and reads of what isn't there
KINDS = ["%s by a %s" % (what, sym) for what in ("slots", "switches") for sym in ("primitive", "rule", "text")]
KINDS += ["missing attributes", "own terms", "loop variables outside"]


def kind_of(term, sym):
    by = "text" if isinstance(sym, bytes) else "rule" if isinstance(sym, tuple) else "primitive"
    return "%s by a %s" % ("switches" if isinstance(term, Switch) else "slots", by)


class Watched(Run):
    """A run that tells its parse which of these it met."""

    def seen(self, u, sym, name):
        done, met = self.done[u], self.parse.met
        if done is None:
            met.add("own terms")
        elif sym != done.sym:
            met.add(kind_of(self.terms[u], sym))
        if done is not None and self.is_read_by(u, sym) and name not in {"start", "end", *done.what.get("attrs", {})}:
            met.add("missing attributes")
        return super().seen(u, sym, name)

    def attribute(self, e):
        if e[0] == "loop" and self.loop is None:
            self.parse.met.add("loop variables outside")
        if e[0] == "own" and e[1] not in self.own:
            self.parse.met.add("own terms")
        return super().attribute(e)


class Loaded(Parse):
    run_of = Watched

    def __init__(self, grammar, steps=20000):
        super().__init__(grammar, steps)
        self.met = set()


def answers(file, inputs):
    """For each input the status and the text of `load`, and which references were met."""
    try:
        grammar = loaded(file)
    except Refusal as refusal:
        return [((9, "refused %s\n" % refusal), set())] * len(inputs)
    parses = [Loaded(grammar) for _ in inputs]
    return [(parse.answer(data), parse.met) for parse, data in zip(parses, inputs)]


# ---- cases

# at most such a share of the cases ends with each status
SHARES = {0: 1, 1: 0.3, 3: 0.1, 9: 0.2}


def random_cases(rng, count):
    """Files, inputs, the answers due, and which of the kinds were met; each case is refused or meets one."""
    cases, ends = [], Counter()
    while len(cases) < count:
        file, inputs = random_file(rng), [random_input(rng) + random_input(rng) for _ in range(4)]
        try:
            found = answers(file, inputs)
        except TooLong:
            continue
        for data, (due, met) in zip(inputs, found):
            if (met or due[0] == 9) and ends[due[0]] < SHARES[due[0]] * count:
                ends[due[0]] += 1
                cases.append((file, data, due, met))
                break
    return cases


# ---- against the program, and against answers from outside

def from_outside():
    """Rows of table files, each with whether the evaluator says what is due."""
    for name in ("symbols", "loads"):
        with open(os.path.join(HERE, "vectors", name + ".json")) as file:
            for row in json.load(file):
                (got, _), = answers(bytes.fromhex(row["files"]["t.tab"]), [bytes.fromhex(row["input"])])
                yield row["name"], got == (row["status"], row["stdout"])


def loads(command, cases):
    """What the program says of each case."""
    with tempfile.TemporaryDirectory() as folder, ThreadPoolExecutor(2) as pool:
        program = Program(os.path.abspath(command), folder)

        def load(number):
            file, data, _, _ = cases[number]
            return program.run("load", program.file("t%d" % number, file), program.file("f%d" % number, data))
        return list(pool.map(load, range(len(cases))))


def main(command, count=1000, seed=1):
    cases, given = random_cases(random.Random(seed), count), dict(from_outside())
    wrong = [(case, got) for case, got in zip(cases, loads(command, cases)) if got != case[2]]
    for (file, data, due, _), got in wrong[:3]:
        print("tables: load of %s\n  input %s\n  got %r\n  due %r" % (file.hex(), data.hex(), got, due))
    undue = [name for name, is_due in given.items() if not is_due]
    ends = Counter(due[0] for _, _, due, _ in cases)
    met = Counter(kind for *_, kinds in cases for kind in kinds)
    print("tables: %d random bodies, %d differ: %d trees, %d without, %d refused, %d out of range"
          % (len(cases), len(wrong), ends[0], ends[1], ends[9], ends[3]))
    print("tables: bodies that read " + ", ".join("%s %d" % (kind, met[kind]) for kind in KINDS))
    print("tables: of %d answers from outside the evaluator gives %s" % (len(given), "all but %s" % undue if undue else "each"))
    return 1 if wrong or undue or min(ends[status] for status in SHARES) == 0 or min(met[kind] for kind in KINDS) == 0 else 0


if __name__ == "__main__":
    sys.setrecursionlimit(DEEPEST)
    sys.exit(main(sys.argv[1], *map(int, sys.argv[2:])))
