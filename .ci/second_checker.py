"""A second checker of certificates, written from docs/CERTIFICATE.md, docs/LANGUAGE.md and docs/MEANING.md alone.

  second_checker.py GRAMMAR CERTIFICATE

Says what `verify` says of the two files, and ends with its status; of a text that isn't a grammar's it only says so, with
status 2. It doesn't look for the refusals of a grammar that a reader of its text needn't notice.
"""

import re
import sys
from collections import namedtuple

from random_grammars import LEVELS, WIDTHS, Alt, Array, Grammar, Many, Refused, Rule, Set, Slot, Switch, Test, slots, symbols, term_mentions

LONGEST = 2 ** 30
LEAST, GREATEST = -2 ** 63, 2 ** 63 - 1
# how deep calls of the checker may nest: an alternative of 256 repetitions has places as deep
DEEPEST = 20000
RESERVED = {"for", "to", "do", "switch", "case", "else", "where", "start", "end", "EOI", "tok", "many"}


class NotGrammar(Exception):
    """The text is no grammar's."""


class CertText(Exception):
    """The text is no certificate's; with the place."""


class Mismatch(Exception):
    """An entry isn't the one that is due; with its number."""


# ---- the text of a grammar

TOKEN = re.compile(rb"""(?P<gap>[ \t\n\r]+|\#[^\n]*)|(?P<name>[A-Za-z_][A-Za-z_0-9]*)|(?P<number>0x[0-9a-fA-F]+|[0-9]+)
    |"(?P<string>(?:[\x20\x21\x23-\x5b\x5d-\x7e]|\\["\\]|\\x[0-9a-fA-F]{2})*)"
    |(?P<symbol>->|<<|>>|==|!=|<=|>=|&&|\|\||[/;\[\]{}(),.=?:+*%&|^<>!-])""", re.VERBOSE)


def unescaped(string):
    return re.sub(rb"\\(?:x(..)|(.))", lambda m: bytes.fromhex(m[1].decode()) if m[1] else m[2], string)


def tokens_of(text):
    """Pairs of a kind and what stands there; the last is of the kind `over`."""
    made, at = [], 0
    while at < len(text):
        found = TOKEN.match(text, at)
        if found is None:
            raise NotGrammar
        at = found.end()
        kind = found.lastgroup
        if kind == "string":
            made.append((kind, unescaped(found[kind])))
        elif kind == "number":
            digits = found[kind].decode()
            made.append((kind, int(digits[2:], 16) if digits[1:2] == "x" else int(digits)))
        elif kind != "gap":
            word = found[kind].decode()
            made.append(("word" if word in RESERVED or kind == "symbol" else kind, word))
    return made + [("over", None)]


class Text:
    """A reader of a grammar's tokens."""

    def __init__(self, text):
        self.tokens, self.at = tokens_of(text), 0

    def is_next(self, *words):
        kind, what = self.tokens[self.at]
        return kind == "word" and what in words

    def took(self, word):
        self.at += self.is_next(word)
        return self.tokens[self.at - 1] == ("word", word)

    def take(self, *words):
        for word in words:
            if not self.is_next(word):
                raise NotGrammar
            self.at += 1

    def kind(self, kind):
        found, what = self.tokens[self.at]
        if found != kind:
            raise NotGrammar
        self.at += 1
        return what

    def grammar(self):
        rules = [self.rule()]
        while self.tokens[self.at][0] != "over":
            rules.append(self.rule())
        return rules

    def rule(self):
        name = self.kind("name")
        self.take("->")
        alts = [self.alternative()]
        while not self.is_next(";"):
            self.take("/")
            alts.append(self.alternative())
        self.take(";")
        return Rule(name, alts)

    def alternative(self):
        terms, rules = [self.term()], []
        while not self.is_next("/", ";", "where"):
            terms.append(self.term())
        if self.is_next("where"):
            self.take("where", "{")
            while not rules or not self.is_next("}"):
                rules.append(self.rule())
            self.take("}")
        return Alt(terms, rules)

    def term(self):
        if self.is_next("{"):
            self.take("{")
            attr = self.kind("name")
            self.take("=")
            value = self.expression()
            self.take("}")
            return Set(attr, value)
        if self.is_next("?"):
            self.take("?")
            return Test(self.group())
        if self.is_next("for"):
            return self.array()
        if self.is_next("many"):
            self.take("many")
            return Many(self.kind("name"), self.place())
        return self.switch() if self.is_next("switch") else self.slot()

    def array(self):
        self.take("for")
        var = self.kind("name")
        self.take("=")
        first = self.expression()
        self.take("to")
        last = self.expression()
        self.take("do")
        sym, place = self.kind("name"), self.place()
        if len(place) != 2:
            raise NotGrammar
        return Array(var, first, last, sym, place)

    def switch(self):
        cases = []
        self.take("switch", "{")
        while not cases or not self.is_next("else"):
            self.take("case")
            cases.append((self.group(), self.slot()))
        self.take("else")
        other = self.slot()
        self.take("}")
        return Switch(cases, other)

    def slot(self):
        sym = self.kind("string" if self.tokens[self.at][0] == "string" else "name")
        return Slot(sym, self.place())

    def place(self):
        if not self.is_next("["):
            return ()
        self.take("[")
        ends = [self.expression()]
        if self.is_next(","):
            self.take(",")
            ends.append(self.expression())
        self.take("]")
        return tuple(ends)

    def group(self):
        self.take("(")
        e = self.expression()
        self.take(")")
        return e

    def expression(self):
        cond = self.infix(0)
        if not self.is_next("?"):
            return cond
        self.take("?")
        then = self.expression()
        self.take(":")
        return "?", cond, then, self.expression()

    def infix(self, level):
        """An expression of that level of operators, or of a tighter one."""
        if level == len(LEVELS):
            return self.operand()
        e = self.infix(level + 1)
        while self.is_next(*LEVELS[level]):
            op = self.kind("word")
            e = op, e, self.infix(level + 1)
        return e

    def operand(self):
        if self.is_next("-", "!"):
            op = self.kind("word")
            return op, self.operand()
        if self.is_next("("):
            return self.group()
        if self.is_next("EOI"):
            self.take("EOI")
            return ("eoi",)
        if self.tokens[self.at][0] == "number":
            return "num", self.kind("number")
        name = self.kind("name")
        if self.is_next("("):
            index = self.group()
            return "item", name, index, self.field()
        return ("part", name, self.field()) if self.is_next(".") else ("name", name)

    def field(self):
        self.take(".")
        return self.kind("word" if self.is_next("start", "end") else "name")


# ---- linear forms and atoms

# The variables of a form, each with its factor, in the order in which they first stand, also those that cancel.
Form = namedtuple("Form", "factors constant")
# A form that is at most 0; its variables are those that it mentions, in order.
Atom = namedtuple("Atom", "factors constant")
# Parts, each a list of members. A formula is a list of members, each an Atom or an Any: an All is put in place.
Any = namedtuple("Any", "parts")


def summed(a, times, b, times_b):
    factors = {v: times * n for v, n in a.factors.items()}
    for v, n in b.factors.items():
        factors[v] = factors.get(v, 0) + times_b * n
    return Form(factors, times * a.constant + times_b * b.constant)


def is_number(form):
    return not any(form.factors.values())


def mentioned(form):
    return {v: n for v, n in form.factors.items() if n != 0}


def within_limits(form):
    factors = mentioned(form)
    return len(factors) <= 64 and all(abs(n) <= 2 ** 40 for n in factors.values()) and LEAST <= form.constant <= GREATEST


def number(n):
    return Form({}, n)


def variable(v):
    return Form({v: 1}, 0)


SWAPPED = {"==": "!=", "!=": "==", "<": ">=", ">=": "<", ">": "<=", "<=": ">"}


class View:
    """An alternative and its variables: that of a call, or that of the holder of its rule."""

    def __init__(self, grammar, marks, at, is_holder=False):
        self.grammar, self.marks, self.at, self.is_holder = grammar, marks, at, is_holder
        self.terms = grammar.alts[at[0]][at[1]]
        self.order = grammar.orders[at[0]][at[1]]
        self.length = variable("H" if is_holder else "EOI")
        self.open = []

    # -- expressions

    def form(self, e):
        made = self.read(e)
        return made if made is not None and within_limits(made) else variable(("expression", self.is_holder, e))

    def read(self, e):
        """The form of an expression, or None where it is opaque or a variable with facts."""
        kind = e[0]
        if kind == "num":
            return number(e[1])
        if kind == "eoi":
            return self.length
        if kind in ("own", "outer"):
            shared = self.is_holder or kind == "outer"
            return variable(("holder's" if shared else "own", e[1]))
        if kind == "loop":
            return variable("loop")
        if kind == "seen":
            return self.field(e[1], e[3])
        if kind in ("+", "-"):
            sides = [self.form(x) for x in e[1:]]
            if len(sides) == 1:
                return summed(sides[0], -1, number(0), 0)
            return summed(sides[0], 1, sides[1], 1 if kind == "+" else -1)
        return self.product(self.form(e[1]), self.form(e[2])) if kind == "*" else None

    def product(self, a, b):
        if is_number(b):
            return summed(a, b.constant, b, 0)
        return summed(a, 0, b, a.constant) if is_number(a) else None

    def field(self, u, name):
        return variable(("field", self.is_holder, u, name))

    def width(self, sym):
        """How many bytes what is called touches at least."""
        return WIDTHS[sym] if sym in WIDTHS else int(self.grammar.touches(sym, self.marks))

    # -- facts

    def facts(self, v):
        """What holds of a variable, as members."""
        if v[0] != "expression" or v in self.open:
            return []
        self.open.append(v)
        e, it = v[2], variable(v)
        made = []
        if e[0] == "?":
            made = [Any([self.truth(e[1], True) + self.equal(it, self.form(e[2])),
                         self.truth(e[1], False) + self.equal(it, self.form(e[3]))])]
        elif e[0] == "item":
            made = self.item(it, self.terms[e[1]].sym, e[3])
        elif e[0] == "after":
            made = self.after(it, self.terms[e[1]], self.form(e[2]))
        self.open.pop()
        return made

    def item(self, it, sym, field):
        wide = number(self.width(sym))
        if field == "start":
            return self.at_most(number(0), it) + self.at_most(summed(it, 1, wide, 1), self.length)
        if field == "end":
            return self.at_most(wide, it) + self.at_most(it, self.length)
        return self.ranged(it, sym) if sym in WIDTHS else []

    def ranged(self, it, sym):
        bits = 32 if WIDTHS[sym] == 8 else 8 * WIDTHS[sym]
        return self.at_most(number(0), it) + self.at_most(it, number(2 ** bits - 1))

    def after(self, it, term, left):
        ends = self.at_most(number(1), it) + self.at_most(it, self.length)
        if isinstance(term, Many) or self.width(term.sym) == 0:
            return [Any([ends, self.equal(it, left)])]
        first, last = self.form(term.first), self.form(term.last)
        return [Any([self.less(first, last) + ends, self.at_most(last, first) + self.equal(it, left)])]

    # -- atoms

    def atom(self, a, b, more=0):
        """The atom `a + more <= b`, or None where it leaves the limits."""
        form = summed(summed(a, 1, number(more), 1), 1, b, -1)
        return Atom(mentioned(form), form.constant) if within_limits(form) else None

    def put(self, *atoms):
        """The atoms that are within the limits, behind the facts of what the first of them mentions."""
        kept = [atom for atom in atoms if atom is not None]
        return [fact for v in (kept[0].factors if kept else ()) for fact in self.facts(v)] + kept

    def at_most(self, a, b):
        return self.put(self.atom(a, b))

    def less(self, a, b):
        return self.put(self.atom(a, b, 1))

    def equal(self, a, b):
        return self.put(self.atom(a, b), self.atom(b, a))

    def compared(self, op, a, b):
        if op == "==":
            return self.equal(a, b)
        if op == "!=":
            return [Any([self.less(a, b), self.less(b, a)])]
        if op in (">", ">="):
            op, a, b = {">": "<", ">=": "<="}[op], b, a
        return self.less(a, b) if op == "<" else self.at_most(a, b)

    def truth(self, e, is_true):
        """That an expression isn't 0, or that it is."""
        kind = e[0]
        if kind == "!":
            return self.truth(e[1], not is_true)
        if kind in ("&&", "||"):
            if is_true == (kind == "&&"):
                return self.truth(e[1], is_true) + self.truth(e[2], is_true)
            return [Any([self.truth(e[1], is_true), self.truth(e[1], not is_true) + self.truth(e[2], is_true)])]
        if kind == "?":
            return [Any([self.truth(e[1], True) + self.truth(e[2], is_true), self.truth(e[1], False) + self.truth(e[3], is_true)])]
        if kind in SWAPPED:
            return self.compared(kind if is_true else SWAPPED[kind], self.form(e[1]), self.form(e[2]))
        return self.compared("!=" if is_true else "==", self.form(e), number(0))

    # -- terms

    def puts(self, u):
        term = self.terms[u]
        if isinstance(term, Set):
            return self.equal(self.form(("own", term.attr)), self.form(term.value))
        if isinstance(term, Test):
            return self.truth(term.cond, True)
        if isinstance(term, Array):
            return []
        if isinstance(term, Many):
            return self.interval(term.place)
        if isinstance(term, Slot):
            return self.slot(u, term)
        return [Any([self.chosen(term, b) + self.slot(u, slot) for b, slot in enumerate(slots(term))])]

    def chosen(self, term, b):
        """That a switch takes its branch b."""
        made = [member for cond, _ in term.cases[:b] for member in self.truth(cond, False)]
        return made + (self.truth(term.cases[b][0], True) if b < len(term.cases) else [])

    def interval(self, place):
        left, right = map(self.form, place)
        return self.at_most(number(0), left) + self.at_most(left, right) + self.at_most(right, self.length)

    def slot(self, u, slot):
        return self.interval(slot.place) + self.touched(u, slot.sym, *map(self.form, slot.place))

    def touched(self, u, sym, left, right):
        start, end = self.field(u, "start"), self.field(u, "end")
        if sym == "Bytes":
            return self.equal(start, left) + self.equal(end, right)
        nothing = self.equal(start, right) + self.equal(end, left)
        if sym == b"":
            return nothing
        if isinstance(sym, bytes) or sym in WIDTHS:
            wide = number(len(sym) if isinstance(sym, bytes) else WIDTHS[sym])
            made = self.equal(start, left) + self.equal(end, summed(left, 1, wide, 1)) + self.at_most(end, right)
            names = [] if isinstance(sym, bytes) else ["hi", "lo"] if WIDTHS[sym] == 8 else ["val"]
            return made + [fact for name in names for fact in self.ranged(self.field(u, name), sym)]
        some = self.at_most(left, start) + self.less(start, end) + self.at_most(end, right)
        return some if self.width(sym) == 1 else [Any([some, nothing])]


# ---- the conditions of calls

Edge = namedtuple("Edge", "rule alt term branch callee")


def edges_of(grammar):
    return [Edge(r, a, u, b, grammar.numbers[sym])
            for r, alts in enumerate(grammar.alts) for a, terms in enumerate(alts) for u, term in enumerate(terms)
            for b, sym in enumerate(symbols(term)) if sym in grammar.numbers]


def held(grammar, marks, edge):
    """What is put of the holder."""
    attrs = {m[1] for term in grammar.alts[edge.rule][edge.alt] for m in term_mentions(term) if m[0] == "outer"}
    if not attrs:
        return []
    at = grammar.entries[edge.rule][1]
    view = View(grammar, marks, at, True)
    needed, left = set(), [u for u, term in enumerate(view.terms) if isinstance(term, Set) and term.attr in attrs]
    while left:
        u = left.pop()
        if u not in needed:
            needed.add(u)
            left += grammar.providers(*at, view.terms, u)
    return view.at_most(variable("EOI"), view.length) + [m for u in view.order if u in needed for m in view.puts(u)]


def keep(grammar, marks, edge):
    """What holds where the call of an edge keeps its caller's whole part."""
    made = held(grammar, marks, edge)
    view = View(grammar, marks, (edge.rule, edge.alt))
    for u in view.order[:view.order.index(edge.term)]:
        made += view.puts(u)
    term = view.terms[edge.term]
    place = term.place if isinstance(term, (Array, Many)) else slots(term)[edge.branch].place
    if isinstance(term, Array):
        made += view.at_most(view.form(term.first), variable("loop")) + view.less(variable("loop"), view.form(term.last))
    if isinstance(term, Switch):
        made += view.chosen(term, edge.branch)
    left, right = map(view.form, place)
    return made + view.equal(left, number(0)) + view.equal(right, view.length)


def root(formulas):
    """The facts at the root, and how many variables there are: EOI is shared, all others are a formula's own."""
    numbers, bounds = {"EOI": 0}, [(0, LONGEST)]

    def numbered(member, at):
        if isinstance(member, Any):
            return Any([[numbered(m, at) for m in part] for part in member.parts])
        factors = {}
        for v, n in member.factors.items():
            key = v if v == "EOI" else (at, v)
            if key not in numbers:
                numbers[key] = len(numbers)
                bounds.append((0, LONGEST) if v == "H" else (LEAST, GREATEST))
            factors[numbers[key]] = n
        return Atom(factors, member.constant)

    members = [numbered(member, at) for at, formula in enumerate(formulas) for member in formula]
    facts = [fact for v, (low, high) in enumerate(bounds) for fact in (Atom({v: -1}, low), Atom({v: 1}, -high))]
    return facts + members, len(bounds)


# ---- the text of a certificate

class Certificate:
    """A certificate's text, read: `dead` and `cycles` are lists of edges and steps."""

    def __init__(self, text):
        self.text, self.at = text, 0
        self.expect(b"ipgcert 2\ndead ")
        dead = self.number(0, 2 ** 32 - 1)
        self.expect(b"\n")
        self.dead = []
        while len(self.dead) < dead:
            edge = self.number(0, 2 ** 32 - 1)
            self.dead.append((edge, self.refutation()))
        self.expect(b"cycles ")
        cycles = self.number(0, 2 ** 64 - 1)
        self.expect(b"\n")
        self.cycles = []
        while len(self.cycles) < cycles:
            self.cycles.append((self.edges(), self.refutation()))
        if self.at < len(text):
            raise CertText(self.at)

    def byte(self):
        return self.text[self.at:self.at + 1]

    def expect(self, word):
        for n in range(len(word)):
            if self.byte() != word[n:n + 1]:
                raise CertText(self.at)
            self.at += 1

    def number(self, least, most):
        if least < 0 and self.byte() == b"-":
            self.at += 1
            return -self.number(1, -least)
        if least <= 0 and self.byte() == b"0":
            self.at += 1
            return 0
        if self.byte() == b"0" or not self.byte().isdigit():
            raise CertText(self.at)
        value = 0
        while self.byte().isdigit():
            value = 10 * value + int(self.byte())
            if value > most:
                raise CertText(self.at)
            self.at += 1
        return value

    def spaced(self, least=0, most=2 ** 64 - 1):
        self.expect(b" ")
        return self.number(least, most)

    def edges(self):
        count, made = self.number(1, 2 ** 32 - 1), []
        while len(made) < count:
            made.append(self.spaced(0, 2 ** 32 - 1))
        return made

    def refutation(self):
        """The steps of one tree, in prefix order, and the end of its line."""
        steps, trees = [], 1
        while trees > 0:
            step, more = self.step()
            steps.append(step)
            trees += more - 1
        self.expect(b"\n")
        return steps

    def step(self):
        """A step, and how many trees follow it."""
        self.expect(b" ")
        kind = self.byte()
        if kind not in (b"c", b"s", b"e"):
            raise CertText(self.at)
        self.at += 1
        if kind == b"s":
            return ("split", self.spaced(), self.spaced(LEAST, GREATEST)), 2
        if kind == b"e":
            fact, parts = self.spaced(), self.spaced(1)
            return ("either", fact, parts), parts
        count, entries = self.spaced(1), []
        while len(entries) < count:
            entries.append((self.spaced(), self.spaced()))
        return ("combine", entries), 0


# ---- what a certificate is checked against

def cycles_of(edges, dead):
    """The simple cycles without a dead edge, in order."""
    out = {}
    for n, edge in enumerate(edges):
        if n not in dead:
            out.setdefault(edge.rule, []).append(n)

    def leads_back(rule, first, path):
        """Whether the first caller can be reached from the rule, round what the path passed."""
        seen, left = {edges[n].rule for n in path} | {rule}, [rule]
        while left:
            for n in out.get(left.pop(), []):
                callee = edges[n].callee
                if callee == first:
                    return True
                if callee > first and callee not in seen:
                    seen.add(callee)
                    left.append(callee)
        return False

    def further(first, path):
        for n in out.get(edges[path[-1]].callee, []):
            yield from grown(first, path + [n])

    def grown(first, path):
        callee = edges[path[-1]].callee
        if callee == first:
            yield path
        elif callee > first and callee not in [edges[n].rule for n in path] and leads_back(callee, first, path):
            yield from further(first, path)

    for n, edge in enumerate(edges):
        if n not in dead:
            yield from grown(edge.rule, [n])


def is_combined(entries, facts):
    """Whether the facts, each its weight times, sum up to a constant above 0."""
    if len(entries) > 2 ** 21:
        return False
    total = number(0)
    for weight, fact in entries:
        if not (1 <= weight <= 2 ** 40 and fact < len(facts) and isinstance(facts[fact], Atom)):
            return False
        total = summed(total, 1, facts[fact], weight)
    return is_number(total) and total.constant > 0


def is_refuted(steps, formulas):
    facts, variables = root(formulas)
    left = [facts]
    for kind, *words in steps:
        here = left.pop()
        if kind == "combine":
            if not is_combined(words[0], here):
                return False
        elif kind == "split":
            v, at = words
            if v >= variables:
                return False
            left += [here + [Atom({v: -1}, at + 1)], here + [Atom({v: 1}, -at)]]
        else:
            fact, parts = words
            if fact >= len(here) or not isinstance(here[fact], Any) or len(here[fact].parts) != parts:
                return False
            left += [here + part for part in reversed(here[fact].parts)]
    return True


def match(certificate, edges):
    """Holds the entries against the grammar's edges and cycles."""
    before = -1
    for entry, (edge, _) in enumerate(certificate.dead):
        if not before < edge < len(edges):
            raise Mismatch(entry)
        before = edge
    due = cycles_of(edges, {edge for edge, _ in certificate.dead})
    for entry, (cycle, _) in enumerate(certificate.cycles, len(certificate.dead)):
        if next(due, None) != cycle:
            raise Mismatch(entry)
    if next(due, None) is not None:
        raise Mismatch(len(certificate.dead) + len(certificate.cycles))


def unsound_entry(grammar, certificate):
    """The first entry whose refutation doesn't check, or None; entries have to be those that are due."""
    edges = edges_of(grammar)
    match(certificate, edges)
    marks = grammar.must_touch()
    entries = [([edge], steps) for edge, steps in certificate.dead] + certificate.cycles
    for entry, (path, steps) in enumerate(entries):
        if not is_refuted(steps, [keep(grammar, marks, edges[n]) for n in path]):
            return entry
    return None


def faulty_entry(grammar, certificate):
    """The entry at fault, or None."""
    try:
        return unsound_entry(grammar, certificate)
    except Mismatch as fault:
        return fault.args[0]


def verdict(grammar, certificate):
    """What `verify` says of the two texts, and its status."""
    try:
        grammar = Grammar(Text(grammar).grammar())
        certificate = Certificate(certificate)
        entry = unsound_entry(grammar, certificate)
    except (NotGrammar, Refused):
        return 2, "not a grammar\n"
    except CertText as fault:
        return 9, "refused C1 CertText %d\n" % fault.args
    except Mismatch as fault:
        return 9, "refused C2 Mismatch %d\n" % fault.args
    return (0, "verified\n") if entry is None else (9, "refused C3 Unsound %d\n" % entry)


def content(name):
    with open(name, "rb") as file:
        return file.read()


def main(grammar, certificate):
    sys.setrecursionlimit(DEEPEST)
    status, says = verdict(content(grammar), content(certificate))
    print(says, end="")
    return status


if __name__ == "__main__":
    sys.exit(main(*sys.argv[1:]))
