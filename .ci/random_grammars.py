"""Random grammars over the whole language and inputs: the program's answer against a small evaluator, written from
docs/MEANING.md.

  random_grammars.py COMMAND [COUNT [CHECKED [SEED]]]

COMMAND parse G FILE is run for COUNT grammars whose calls go on to later rules, each with an input, with the memo and
without. Then CHECKED grammars whose calls go anywhere are checked: of those accepted the certificate is verified and
inputs are parsed, of those refused the edges must be calls that lead into one another. The first that differs is
printed, and ends the script with status 1.
"""

import os
import random
import re
import subprocess
import sys
import tempfile
from collections import namedtuple

# A grammar is a list of global rules. A symbol is the bytes of a terminal or a name; a place is (), (length,) or
# (left, right). An expression is a tuple whose first item says what it is.
Rule = namedtuple("Rule", "name alts")
Alt = namedtuple("Alt", "terms locals")
Slot = namedtuple("Slot", "sym place")
Set = namedtuple("Set", "attr value")
Test = namedtuple("Test", "cond")
Array = namedtuple("Array", "var first last sym place")
Many = namedtuple("Many", "sym place")
Switch = namedtuple("Switch", "cases other")  # cases: (condition, slot)

WIDTHS = {"U8": 1, "U16LE": 2, "U16BE": 2, "U32LE": 4, "U32BE": 4, "U64LE": 8, "U64BE": 8}
LEVELS = [["||"], ["&&"], ["==", "!=", "<", "<=", ">", ">="], ["|"], ["^"], ["&"], ["<<", ">>"], ["+", "-"], ["*", "/", "%"]]
LEVEL = {op: n + 1 for n, ops in enumerate(LEVELS) for op in ops}
# so many raw bytes stand in a line of a tree
LONGEST_RAW = 32


class NoTree(Exception):
    """No alternative of a rule has a tree."""


class Range(Exception):
    """A value leaves 64 bits."""


class Refused(Exception):
    """The grammar is refused."""


class TooLong(Exception):
    """More steps than a check is worth."""


# ---- names: which term a reference means

def slots(term):
    """The slots of a term: one, or the branches of a switch."""
    if isinstance(term, Slot):
        return [term]
    return [slot for _, slot in term.cases] + [term.other] if isinstance(term, Switch) else []


def calls(term, sym):
    return any(slot.sym == sym for slot in slots(term))


def has_items(term, sym):
    return isinstance(term, (Array, Many)) and term.sym == sym


def nearest(terms, u, sym, fits):
    """The nearest term to the left that fits, else the first to the right; never the term itself."""
    left = [v for v in range(u) if fits(terms[v], sym)]
    right = [v for v in range(u + 1, len(terms)) if fits(terms[v], sym)]
    return left[-1] if left else right[0]


def resolved(e, terms, u, array):
    """An expression whose references name terms; `array` where it stands in the item interval of that array."""
    kind = e[0]
    if kind == "part":
        return "seen", nearest(terms, u, e[1], calls), e[1], e[2]
    if kind == "item":
        own = array is not None and array.sym == e[1]
        return "item", u if own else nearest(terms, u, e[1], has_items), resolved(e[2], terms, u, array), e[3]
    if kind == "name":
        if any(isinstance(t, Set) and t.attr == e[1] for t in terms):
            return "own", e[1]
        return ("loop",) if array is not None and array.var == e[1] else ("outer", e[1])
    return (kind,) + tuple(resolved(x, terms, u, array) if isinstance(x, tuple) else x for x in e[1:])


def ends(place, left, open_end, mean):
    """Both ends of an interval, completed."""
    if len(place) == 2:
        return mean(place[0]), mean(place[1])
    return left, ("+", left, mean(place[0])) if place else open_end


def open_end(sym, left):
    if isinstance(sym, bytes):
        return "+", left, ("num", len(sym))
    return ("+", left, ("num", WIDTHS[sym])) if sym in WIDTHS else ("eoi",)


def completed(terms):
    """The terms with references resolved and intervals complete."""
    made, left = [], ("num", 0)
    for u, term in enumerate(terms):
        def mean(e, array=None):
            return resolved(e, terms, u, array)

        def slot(s):
            return Slot(s.sym, ends(s.place, left, open_end(s.sym, left), mean))
        if isinstance(term, Slot):
            made.append(slot(term))
            left = "seen", u, term.sym, "end"
        elif isinstance(term, Switch):
            made.append(Switch([(mean(c), slot(s)) for c, s in term.cases], slot(term.other)))
            left = "seen", u, None, "end"
        elif isinstance(term, Array):
            place = tuple(mean(e, term) for e in term.place)
            made.append(Array(term.var, mean(term.first), mean(term.last), term.sym, place))
            left = "after", u, left
        elif isinstance(term, Many):
            made.append(Many(term.sym, ends(term.place, left, ("eoi",), mean)))
            left = "after", u, left
        else:
            made.append(Set(term.attr, mean(term.value)) if isinstance(term, Set) else Test(mean(term.cond)))
    return made


# ---- the order of terms


def expressions(term):
    if isinstance(term, Set):
        return [term.value]
    if isinstance(term, Test):
        return [term.cond]
    if isinstance(term, Array):
        return [term.first, term.last, *term.place]
    if isinstance(term, Many):
        return list(term.place)
    return [e for slot in slots(term) for e in slot.place] + [c for c, _ in getattr(term, "cases", [])]


def mentions(e):
    yield e
    for x in e[1:]:
        if isinstance(x, tuple):
            yield from mentions(x)


def term_mentions(term):
    return [m for e in expressions(term) for m in mentions(e)]


def symbols(term):
    return [term.sym] if isinstance(term, (Array, Many)) else [slot.sym for slot in slots(term)]


class Grammar:
    """The rules in the order of their heads, each alternative's terms complete and in order."""

    def __init__(self, rules):
        self.entries = []
        for rule in rules:
            r = len(self.entries)
            self.entries.append((rule, None))
            for a, alt in enumerate(rule.alts):
                self.entries += [(local, (r, a)) for local in alt.locals]
        self.numbers = {rule.name: r for r, (rule, _) in enumerate(self.entries)}
        self.alts = [[completed(alt.terms) for alt in rule.alts] for rule, _ in self.entries]
        self.orders = [[self.order(r, a, terms) for a, terms in enumerate(alts)] for r, alts in enumerate(self.alts)]
        self.refuse_loose()

    def refuse_loose(self):
        """Refuses the first repetition of raw bytes, or of a rule that may touch no byte."""
        marks = self.must_touch()
        for r, alts in enumerate(self.alts):
            for a, terms in enumerate(alts):
                for u, term in enumerate(terms):
                    if isinstance(term, Many) and not self.touches(term.sym, marks):
                        raise Refused("G14 NoTouch %s %d %d" % (self.entries[r][0].name, a, u))

    def touches(self, sym, marks):
        if isinstance(sym, bytes):
            return len(sym) > 0
        return sym in WIDTHS or (sym in self.numbers and self.numbers[sym] in marks)

    def must_touch(self):
        """The rules each of whose alternatives has a term that touches a byte, by rounds."""
        marks, grows = set(), True
        while grows:
            more = {r for r, alts in enumerate(self.alts) if all(any(self.touches_term(t, marks) for t in terms) for terms in alts)}
            grows = more != marks
            marks = more
        return marks

    def touches_term(self, term, marks):
        return bool(slots(term)) and all(self.touches(slot.sym, marks) for slot in slots(term))

    def callee(self, r, a, u, b):
        """The rule that a term's branch calls."""
        return self.numbers[symbols(self.alts[r][a][u])[b]]

    def reads(self, r):
        """The holder's attributes that a local rule reads, itself or through other local rules."""
        found, left = set(), [r]
        seen = set(left)
        while left:
            terms = [term for alt in self.alts[left.pop()] for term in alt]
            found |= {m[1] for term in terms for m in term_mentions(term) if m[0] == "outer"}
            more = {self.numbers[s] for term in terms for s in symbols(term) if s in self.numbers} - seen
            more = {n for n in more if self.entries[n][1] is not None}
            seen |= more
            left += more
        return found

    def shown(self, what):
        """How a symbol or an attribute stands in a tree's lines."""
        return what

    def providers(self, r, a, terms, u):
        needs = {m[1] for m in term_mentions(terms[u]) if m[0] in ("seen", "item", "after")}
        attrs = {m[1] for m in term_mentions(terms[u]) if m[0] == "own"}
        for sym in symbols(terms[u]):
            if sym in self.numbers and self.entries[self.numbers[sym]][1] == (r, a):
                attrs |= self.reads(self.numbers[sym])
        needs |= {v for v, term in enumerate(terms) if isinstance(term, Set) and term.attr in attrs}
        return needs - {u}

    def order(self, r, a, terms):
        needs = [self.providers(r, a, terms, u) for u in range(len(terms))]
        taken = []
        while len(taken) < len(terms):
            left = [u for u in range(len(terms)) if u not in taken]
            ready = [u for u in left if needs[u] <= set(taken)]
            if not ready:
                raise Refused("G12 Circular %s %d %d" % (self.entries[r][0].name, a, left[0]))
            taken.append(ready[0])
        return taken


# ---- values


def limited(n):
    if not -2 ** 63 <= n < 2 ** 63:
        raise Range
    return n


def shifts(a, b):
    return a >= 0 and 0 <= b <= 63


def applied(op, a, b):
    """The whole number, or None where there is no value."""
    if op in ("/", "%"):
        return None if b <= 0 else a // b if op == "/" else a % b
    if op in ("<<", ">>"):
        return None if not shifts(a, b) else a << b if op == "<<" else a >> b
    if op in ("&", "|", "^"):
        return None if a < 0 or b < 0 else {"&": a & b, "|": a | b, "^": a ^ b}[op]
    if op in ("+", "-", "*"):
        return {"+": a + b, "-": a - b, "*": a * b}[op]
    return int({"==": a == b, "!=": a != b, "<": a < b, "<=": a <= b, ">": a > b, ">=": a >= b}[op])


Done = namedtuple("Done", "sym from_ to start end what")  # a result, its ends as its parent sees them


class Run:
    """An alternative at work on a part."""

    def __init__(self, parse, part, outer, terms):
        self.parse, self.part, self.outer, self.terms = parse, part, outer, terms
        self.own, self.done, self.loop = {}, [None] * len(terms), None

    def field(self, done, name):
        if name in ("start", "end"):
            return done.start if name == "start" else done.end
        if name not in done.what.get("attrs", {}):
            raise NoTree
        return done.what["attrs"][name]

    def is_read_by(self, u, sym):
        """Whether a reference by the symbol may read the term's result: only of a switch is it asked for, and no text's."""
        return not isinstance(self.terms[u], Switch) or sym is None or isinstance(sym, bytes) or sym == self.done[u].sym

    def seen(self, u, sym, name):
        if self.done[u] is None or not self.is_read_by(u, sym):
            raise NoTree
        return self.field(self.done[u], name)

    def value(self, e):
        self.parse.step()
        kind = e[0]
        if kind == "num":
            return e[1]
        if kind == "eoi":
            return len(self.part)
        if kind == "seen":
            return limited(self.seen(*e[1:]))
        if kind == "item":
            at = self.value(e[2])
            items = self.done[e[1]] or []
            if not 0 <= at < len(items):
                raise NoTree
            return limited(self.field(items[at], e[3]))
        if kind == "after":
            touching = [item.end for item in self.done[e[1]] or [] if item.start < item.end]
            return max(touching) if touching else self.value(e[2])
        if kind in ("own", "outer", "loop"):
            return self.attribute(e)
        return self.operated(e)

    def attribute(self, e):
        found = self.loop if e[0] == "loop" else (self.own if e[0] == "own" else self.outer).get(e[1])
        if found is None:
            raise NoTree
        return found

    def operated(self, e):
        kind = e[0]
        if kind == "?":
            return self.value(e[2] if self.value(e[1]) != 0 else e[3])
        if kind in ("&&", "||"):
            first = self.value(e[1]) != 0
            return int(first) if first == (kind == "||") else int(self.value(e[2]) != 0)
        values = [self.value(x) for x in e[1:]]
        if len(values) == 1:
            return limited(-values[0]) if kind == "-" else int(values[0] == 0)
        made = applied(kind, *values)
        if made is None:
            raise NoTree
        return limited(made)

    def slot(self, at, slot):
        left = self.value(slot.place[0])
        right = self.value(slot.place[1])
        if not 0 <= left <= right <= len(self.part):
            raise NoTree
        what = self.parse.symbol(self, at, slot.sym, self.part[left:right])
        return Done(slot.sym, left, right, left + what["start"], left + what["end"], what)

    def term(self, at, u, term):
        if isinstance(term, Set):
            self.own[term.attr] = self.value(term.value)
        elif isinstance(term, Test):
            if self.value(term.cond) == 0:
                raise NoTree
        elif isinstance(term, Slot):
            self.done[u] = self.slot(at, term)
        elif isinstance(term, Switch):
            self.done[u] = self.slot(at, next((s for c, s in term.cases if self.value(c) != 0), term.other))
        elif isinstance(term, Many):
            self.done[u] = self.repeated(at, term)
        else:
            first, last = self.value(term.first), self.value(term.last)
            self.done[u] = []
            for i in range(first, last):
                self.loop = i
                self.done[u].append(self.slot(at, Slot(term.sym, term.place)))
            self.loop = None


    def repeated(self, at, term):
        """The items of a repetition, up to the first that has no tree or touches no byte."""
        left = self.value(term.place[0])
        right = self.value(term.place[1])
        if not 0 <= left <= right <= len(self.part):
            raise NoTree
        items = []
        while True:
            end = left + WIDTHS[term.sym] if term.sym in WIDTHS else right
            try:
                if end > right:
                    raise NoTree
                what = self.parse.symbol(self, at, term.sym, self.part[left:end])
            except NoTree:
                return items
            if what["start"] >= what["end"]:
                return items
            items.append(Done(term.sym, left, end, left + what["start"], left + what["end"], what))
            left += what["end"]


class Parse:
    """A parse of an input; each result is a dictionary with its start and end in its own part."""

    run_of = Run

    def __init__(self, grammar, steps=20000):
        self.grammar, self.left = grammar, steps

    def step(self):
        self.left -= 1
        if self.left < 0:
            raise TooLong

    def symbol(self, run, at, sym, part):
        if isinstance(sym, bytes):
            if not part.startswith(sym):
                raise NoTree
            start, end = (0, len(sym)) if sym else (len(part), 0)
            return {"start": start, "end": end, "token": sym}
        if sym == "Bytes":
            return {"start": 0, "end": len(part), "raw": part}
        if sym in WIDTHS:
            return self.number(sym, part)
        r = self.grammar.numbers[sym]
        holder = self.grammar.entries[r][1]
        return self.rule(r, part, {} if holder is None else dict(run.own) if holder == at else run.outer)

    def number(self, sym, part):
        width = WIDTHS[sym]
        if len(part) < width:
            raise NoTree
        value = int.from_bytes(part[:width], "big" if sym.endswith("BE") else "little")
        attrs = {"val": value} if width < 8 else {"hi": value >> 32, "lo": value & 0xFFFFFFFF}
        return {"start": 0, "end": width, "attrs": attrs, "number": sym}

    def rule(self, r, part, outer):
        self.step()
        for a, terms in enumerate(self.grammar.alts[r]):
            run = self.run_of(self, part, outer, terms)
            try:
                for u in self.grammar.orders[r][a]:
                    run.term((r, a), u, terms[u])
            except NoTree:
                continue
            return self.node(r, terms, run)
        raise NoTree

    def node(self, r, terms, run):
        kids = [(term, done) for term, done in zip(terms, run.done) if done is not None]
        flat = [one for _, done in kids for one in (done if isinstance(done, list) else [done])]
        touching = [one for one in flat if one.start < one.end]
        attrs = {term.attr: run.own[term.attr] for term in terms if isinstance(term, Set)}
        start = min((one.start for one in touching), default=len(run.part))
        end = max((one.end for one in touching), default=0)
        return {"start": start, "end": end, "attrs": attrs, "rule": r, "size": len(run.part), "kids": kids}

    def lines(self, what, at, size, depth):
        if "token" in what:
            yield "%d tok %d %d %s" % (depth, at, at + size, what["token"].hex() or "-")
        elif "raw" in what:
            more = "+%d" % (size - LONGEST_RAW) if size > LONGEST_RAW else ""
            yield "%d Bytes %d %d %s" % (depth, at, at + size, what["raw"][:LONGEST_RAW].hex() or "-") + more
        elif "number" in what:
            yield "%d %s %d %d" % (depth, what["number"], at, at + size) + self.told(what["attrs"])
        else:
            name = self.grammar.entries[what["rule"]][0].name
            ends = (at, at + size, at + what["start"], at + what["end"])
            yield "%d %s %d %d start=%d end=%d" % ((depth, name) + ends) + self.told(what["attrs"])
            for term, done in what["kids"]:
                if isinstance(done, list):
                    kind = "many" if isinstance(term, Many) else "for"
                    yield "%d %s %s %d" % (depth + 1, kind, self.grammar.shown(term.sym), len(done))
                    for one in done:
                        yield from self.lines(one.what, at + one.from_, one.to - one.from_, depth + 2)
                else:
                    yield from self.lines(done.what, at + done.from_, done.to - done.from_, depth + 1)

    def told(self, attrs):
        return "".join(" %s=%d" % (self.grammar.shown(name), value) for name, value in attrs.items())

    def answer(self, data):
        """The status, and the text."""
        try:
            tree = self.rule(0, data, {})
            return 0, "".join(line + "\n" for line in self.lines(tree, 0, len(data), 0))
        except NoTree:
            return 1, "no parse\n"
        except Range:
            return 3, "range\n"


def answer(rules, data):
    try:
        return Parse(Grammar(rules)).answer(data)
    except Refused as why:
        return 2, "refused %s\n" % why


# ---- random grammars

ATTRS = ["n", "k", "len", "hi", "val"]
NAMES = ["S", "A", "B", "_c", "Dash", "endless", "EOI2", "Tail"]


class Maker:
    """Makes a grammar whose calls go on to later rules, or anywhere."""

    def __init__(self, rng, anywhere=False):
        self.rng, self.anywhere = rng, anywhere
        self.names = rng.sample(NAMES, len(NAMES))
        self.attrs = {**{p: ["val"] for p in WIDTHS if p[1:3] != "64"}, "U64LE": ["hi", "lo"], "U64BE": ["hi", "lo"], "Bytes": []}

    def pick(self, *choices):
        return self.rng.choice(choices)

    def named(self, count):
        """Names, each with the attributes that all alternatives of its rule will have."""
        names = [self.names.pop() for _ in range(min(count, len(self.names)))]
        for name in names:
            self.attrs[name] = self.rng.sample(ATTRS, self.pick(0, 0, 1, 2))
        return names

    def grammar(self):
        return self.rules(self.named(self.rng.randint(1, 4)), [], None)

    def rules(self, names, others, holder):
        """The rules of these names, which may call others too."""
        made = []
        for at, name in enumerate(names):
            callees = (names if self.anywhere else names[at + 1:]) + others
            made.append(Rule(name, [self.alt(self.attrs[name], callees, holder) for _ in range(self.rng.randint(1, 3))]))
        return made

    def alt(self, attrs, later, holder):
        own = list(dict.fromkeys(attrs + (self.rng.sample(ATTRS, 1) if self.rng.random() < 0.2 else [])))
        local = []
        if holder is None and self.names and self.rng.random() < 0.25:
            local = self.rules(self.named(self.pick(1, 1, 2)), later, own)
        syms = 3 * ([rule.name for rule in local] + later) + [*WIDTHS, "U8", "U8", "Bytes"]
        plan = [self.shape(syms) for _ in range(self.rng.randint(1, 3))] + [Set(a, None) for a in own]
        self.rng.shuffle(plan)
        plan = [t for t in plan if not (isinstance(t, Array) and t.var in own)] or [Test(None)]
        return Alt([self.filled(plan, u, holder or []) for u in range(len(plan))], local)

    def sym(self, syms):
        token = bytes(self.pick(97, 97, 98, 0, 34, 92) for _ in range(self.pick(0, 1, 1, 1, 2)))
        return self.rng.choice(syms) if self.rng.random() < 0.7 else token

    def shape(self, syms):
        kind = self.rng.random()
        if kind < 0.6:
            return Slot(self.sym(syms), None)
        if kind < 0.72:
            return Array(self.pick("i", "j", "n"), None, None, self.rng.choice(syms), None)
        if kind < 0.8:
            return Many(self.rng.choice([sym for sym in syms if sym != "Bytes" or self.rng.random() < 0.05]), None)
        if kind < 0.9:
            return Switch([(None, Slot(self.sym(syms), None)) for _ in range(self.pick(1, 1, 2))], Slot(self.sym(syms), None))
        return Test(None)

    def filled(self, plan, u, outer):
        """The term with its expressions, each by what the alternative has to refer to."""
        def e(depth=2, array=None):
            return self.expression(plan, u, outer, depth, array)

        def place():
            return self.pick((), (), (), (e(1),), (e(1), ("eoi",)), (e(1), e(1)))

        def slot(s):
            return Slot(s.sym, place())
        term = plan[u]
        if isinstance(term, Many):
            return Many(term.sym, place())
        if isinstance(term, Slot):
            return slot(term)
        if isinstance(term, Switch):
            return Switch([(e(), slot(s)) for _, s in term.cases], slot(term.other))
        if isinstance(term, Array):
            places = [(("name", term.var), ("eoi",)), (e(1, term), ("eoi",)), (e(1, term), e(1, term))]
            last = self.pick(*[("num", n) for n in (0, 1, 2, 2, 2, 3)], ("eoi",), e(1))
            return Array(term.var, self.pick(*[("num", 0)] * 5, e(0)), last, term.sym, self.rng.choice(places))
        return Set(term.attr, e()) if isinstance(term, Set) else Test(e())

    def reference(self, plan, u, outer, array):
        """The fields, attributes and items that an expression of the term may name."""
        seen = u if self.rng.random() < 0.95 else len(plan)
        found = [("name", t.attr) for t in plan[:seen] if isinstance(t, Set)]
        own = [t.attr for t in plan if isinstance(t, Set)]
        found += [("name", a) for a in outer if a not in own]
        for v, t in enumerate(plan[:max(seen, u + 1)]):
            if v != u:
                for s in slots(t):
                    if not isinstance(s.sym, bytes):
                        found += [("part", s.sym, f) for f in ["start", "end"] + self.attrs[s.sym]]
            if isinstance(t, Many) and v != u or isinstance(t, Array) and (v != u or array is not None):
                index = ("name", array.var) if array is not None and self.pick(0, 1) else ("num", self.rng.randrange(2))
                index = ("-", index, ("num", 1)) if v == u else index
                found += [("item", t.sym, index, f) for f in ["start", "end"] + self.attrs[t.sym]]
        if array is not None:
            found += [("name", array.var)]
        return found

    def expression(self, plan, u, outer, depth, array):
        def e():
            return self.expression(plan, u, outer, depth - 1, array)
        kind = self.rng.random()
        found = self.reference(plan, u, outer, array)
        if depth == 0 or kind < 0.5:
            if found and self.rng.random() < 0.6:
                return self.rng.choice(found)
            return self.pick(("eoi",), *[("num", n) for n in (0, 0, 1, 1, 2, 2, self.pick(3, 4, 5, 255, 2 ** 63 - 1))])
        if kind < 0.6:
            return self.pick("-", "!"), e()
        if kind < 0.7:
            return "?", e(), e(), e()
        op = self.rng.choice(["+", "-", "+", "-", "=="] + list(LEVEL))
        return op, e(), e()


# ---- their texts


class Writer:
    """Writes a grammar with its numbers, strings and gaps in one way or another."""

    def __init__(self, rng):
        self.rng = rng

    def gap(self):
        return self.rng.choice(["", "", "", " ", " ", "\n", "\t", " # \"no\" ; token\n"])

    def words(self, *parts):
        return "".join(part + (self.gap() or " ") for part in parts)

    def number(self, n):
        return self.rng.choice(["%d", "0x%x", "0x%X", "0%d"]) % n

    def string(self, token):
        plain = [chr(b) if 32 <= b < 127 and b not in (34, 92) else None for b in token]
        escaped = ["\\" + chr(b) if b in (34, 92) else "\\x%02x" % b for b in token]
        return '"%s"' % "".join(self.rng.choice([p or e, e]) for p, e in zip(plain, escaped))

    def grouped(self, e, least):
        """The expression where one of at least that level stands."""
        level, text = self.leveled(e)
        if level < least or self.rng.random() < 0.05:
            return self.words("(", text, ")")
        return text

    def leveled(self, e):
        kind = e[0]
        if kind == "num":
            return 11, self.number(e[1])
        if kind == "eoi":
            return 11, "EOI"
        if kind == "name":
            return 11, e[1]
        if kind == "part":
            return 11, self.words(e[1], ".", e[2])
        if kind == "item":
            return 11, self.words(e[1], "(", self.grouped(e[2], 0), ")", ".", e[3])
        if kind == "?":
            return 0, self.words(self.grouped(e[1], 1), "?", self.grouped(e[2], 0), ":", self.grouped(e[3], 0))
        if len(e) == 2:
            return 10, self.words(kind, self.grouped(e[1], 10))
        level = LEVEL[kind]
        return level, self.words(self.grouped(e[1], level), kind, self.grouped(e[2], level + 1))

    def slot(self, slot):
        sym = self.string(slot.sym) if isinstance(slot.sym, bytes) else slot.sym
        return self.words(sym, self.place(slot.place))

    def place(self, place):
        return self.words("[", self.words(",").join(self.grouped(e, 0) for e in place), "]") if place else ""

    def term(self, term):
        if isinstance(term, Slot):
            return self.slot(term)
        if isinstance(term, Set):
            return self.words("{", term.attr, "=", self.grouped(term.value, 0), "}")
        if isinstance(term, Test):
            return self.words("?", "(", self.grouped(term.cond, 0), ")")
        if isinstance(term, Array):
            head = self.words("for", term.var, "=", self.grouped(term.first, 0), "to", self.grouped(term.last, 0), "do")
            return head + self.words(term.sym, self.place(term.place))
        if isinstance(term, Many):
            return self.words("many", term.sym, self.place(term.place))
        cases = [self.words("case", "(", self.grouped(c, 0), ")", self.slot(s)) for c, s in term.cases]
        return self.words("switch", "{", *cases, "else", self.slot(term.other), "}")

    def alt(self, alt):
        local = ["where", "{", *[self.rule(rule) for rule in alt.locals], "}"] if alt.locals else []
        return self.words(*[self.term(t) for t in alt.terms], *local)

    def rule(self, rule):
        return self.words(rule.name, "->", self.words("/").join(self.alt(alt) for alt in rule.alts), ";")

    def grammar(self, rules):
        return self.gap() + self.gap().join(self.rule(rule) for rule in rules)


def has_lines(least):
    return lambda due: due[0] == 0 and due[1].count("\n") >= least


def is_range(due):
    return due[0] == 3


# the answers that the cases ask for, in turn; one in thirty is out of range
WANTED = [lambda due: True, has_lines(2), lambda due: due[0] < 2, has_lines(4), has_lines(6)]


def random_input(rng):
    return bytes(rng.choice([97, 97, 98, 0, 1, 2, 3, 34, 92, 255]) for _ in range(rng.randrange(9)))


def random_case(rng, is_wanted):
    """A grammar, an input and the answer, which is one that is wanted."""
    while True:
        rules = Maker(rng).grammar()
        for _ in range(6):
            data = random_input(rng)
            try:
                due = answer(rules, data)
            except TooLong:
                break
            if is_wanted(due):
                return rules, data, due


class Program:
    """The program, with a folder for its files."""

    def __init__(self, command, folder):
        self.command, self.folder = command, folder

    def file(self, name, data):
        path = os.path.join(self.folder, name)
        with open(path, "wb") as out:
            out.write(data)
        return path

    def run(self, *words):
        """The status, negative where a signal ended it, and the text."""
        run = subprocess.run([self.command, *words], stdout=subprocess.PIPE, stdin=subprocess.DEVNULL, timeout=120)
        return run.returncode, run.stdout.decode("latin-1")


def parses(program, rng, count):
    """Grammars whose calls go on, against the evaluator; how many ended with each status."""
    seen = {0: 0, 1: 0, 2: 0, 3: 0}
    for case in range(count):
        rules, data, due = random_case(rng, is_range if case % 30 == 0 else WANTED[case % len(WANTED)])
        text = Writer(rng).grammar(rules)
        names = program.file("g", text.encode()), program.file("f", data)
        for memo in "on", "off":
            got = program.run("parse", *names, "--memo", memo)
            if got != due:
                raise Differs("parse --memo " + memo, text, data, got, due)
        seen[due[0]] += 1
    return seen


class Differs(Exception):
    """What was run, the grammar, the input, and two answers."""


EDGE = re.compile(r"(\w+)/(\d+)/(\d+)/(\d+)")


def is_loop(grammar, line):
    """Whether the line tells calls of the grammar that lead into one another, from the rule of least number on."""
    told = re.fullmatch(r"refused G13 MayLoop EOI=(0|[1-9]\d*)((?: \w+/\d+/\d+/\d+)+)\n", line)
    if told is None or int(told.group(1)) > 2 ** 30:
        return False
    edges = [(grammar.numbers[name], int(a), int(u), int(b)) for name, a, u, b in EDGE.findall(told.group(2))]
    callers = [edge[0] for edge in edges]
    return callers[0] == min(callers) and len(set(callers)) == len(callers) \
        and [grammar.callee(*edge) for edge in edges] == callers[1:] + callers[:1]


def agrees(program, rng, rules, text, g):
    """An accepted grammar: its certificate proves it, and inputs are parsed as the evaluator says."""
    status, certificate = program.run("cert", g)
    got = program.run("verify", g, program.file("c", certificate.encode("latin-1")))
    if status != 0 or got != (0, "verified\n"):
        raise Differs("cert, verify", text, certificate, got, (0, "verified\n"))
    for number in range(20):
        data = random_input(rng)
        got = program.run("parse", g, program.file("f", data))
        try:
            due = answer(rules, data) if number < 4 else None
        except TooLong:
            due = None
        if got != due if due else got[0] not in (0, 1, 3):
            raise Differs("parse", text, data, got, due)


def checks(program, rng, count):
    """Grammars whose calls go anywhere; how many were accepted, and refused by G13."""
    accepted = loops = 0
    for _ in range(count):
        rules = Maker(rng, True).grammar()
        text = Writer(rng).grammar(rules)
        g = program.file("g", text.encode())
        got = program.run("check", g)
        try:
            grammar = Grammar(rules)
        except Refused as why:
            if got != (2, "refused %s\n" % why):
                raise Differs("check", text, None, got, str(why))
            continue
        if got == (0, "accepted\n"):
            accepted += 1
            agrees(program, rng, rules, text, g)
        elif got[0] == 2 and is_loop(grammar, got[1]) and program.run("parse", g, g) == got:
            loops += 1
        else:
            raise Differs("check", text, None, got, "accepted, or a cycle of calls")
    return accepted, loops


def main(command, count=300, checked=1000, seed=1):
    rng = random.Random(seed)
    with tempfile.TemporaryDirectory() as folder:
        program = Program(command, folder)
        try:
            seen = parses(program, rng, count)
            accepted, loops = checks(program, rng, checked)
        except Differs as found:
            print("random: %s differs\n%s\ninput %r\n  got %r\n  due %r" % found.args)
            return 1
    print("random: %d grammars agree: %d trees, %d without, %d refused, %d out of range"
          % (count, seen[0], seen[1], seen[2], seen[3]))
    print("random: of %d whose calls go anywhere %d are accepted, %d may loop" % (checked, accepted, loops))
    return 0 if min(seen[0], seen[1], seen[3], accepted, loops) > 0 else 1


if __name__ == "__main__":
    sys.exit(main(sys.argv[1], *map(int, sys.argv[2:])))
