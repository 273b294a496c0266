"""A second writer of table files' bodies, made from docs/TABLE.md and docs/CERTIFICATE.md.

  table_writer.py COMMAND [COUNT [SEED]]

Holds the bodies of COUNT random grammars against those that COMMAND table writes, byte for byte. The first that differs
is printed, and ends the script with status 1.
"""

import os
import random
import sys
import tempfile

from random_grammars import Array, Grammar, Maker, Many, Program, Refused, Set, Slot, Switch, Test, Writer

PRIMITIVES = ["U8", "U16LE", "U16BE", "U32LE", "U32BE", "U64LE", "U64BE", "Bytes"]
OPERATORS = ["+", "-", "*", "/", "%", "<<", ">>", "&", "|", "^", "==", "!=", "<", "<=", ">", ">="]
TAGS = {("-", 1): 8, ("!", 1): 9, ("&&", 2): 11, ("||", 2): 12, ("?", 3): 13}


# ---- the names of attributes, as they stand in the text


def names_in(e):
    """Names behind a dot."""
    for part in e[1:]:
        if isinstance(part, tuple):
            yield from names_in(part)
    if e[0] in ("part", "item") and e[-1] not in ("start", "end"):
        yield e[-1]


def written(term):
    """The expressions of a term, as they stand in the text."""
    if isinstance(term, Set):
        return [term.value]
    if isinstance(term, Test):
        return [term.cond]
    if isinstance(term, Array):
        return [term.first, term.last, *term.place]
    if isinstance(term, Switch):
        return [e for cond, slot in term.cases for e in (cond, *slot.place)] + list(term.other.place)
    return list(term.place)


def names_of(rules):
    for rule in rules:
        for alt in rule.alts:
            for term in alt.terms:
                if isinstance(term, Set):
                    yield term.attr
                for e in written(term):
                    yield from names_in(e)
            yield from names_of(alt.locals)


# ---- bytes


def number(n, width):
    return n.to_bytes(width, "little", signed=n < 0)


def u32(n):
    return number(n, 4)


def name(text):
    return number(len(text), 8) + text


def listed(items):
    return number(len(items), 8) + b"".join(items)


class Body:
    def __init__(self, rules):
        self.grammar = Grammar(rules)
        self.names = list(dict.fromkeys(names_of(rules)))

    def written(self):
        rules = [self.rule(*entry, alts) for entry, alts in zip(self.grammar.entries, self.grammar.alts)]
        return listed([name(text.encode()) for text in self.names]) + listed(rules)

    def rule(self, rule, holder, alts):
        held = b"\0" if holder is None else b"\1" + u32(holder[0]) + u32(holder[1])
        return name(rule.name.encode()) + held + listed([listed([self.term(term) for term in terms]) for terms in alts])

    def term(self, term):
        if isinstance(term, Slot):
            return b"\0" + self.slot(term)
        if isinstance(term, Set):
            return b"\1" + self.attribute(term.attr) + self.expression(term.value)
        if isinstance(term, Test):
            return b"\2" + self.expression(term.cond)
        if isinstance(term, Array):
            return b"\3" + self.expressions([term.first, term.last]) + self.slot(term)
        if isinstance(term, Many):
            return b"\5" + self.slot(term)
        cases = [self.expression(cond) + self.slot(slot) for cond, slot in term.cases]
        return b"\4" + listed(cases) + self.slot(term.other)

    def slot(self, slot):
        return self.symbol(slot.sym) + self.expressions(slot.place)

    def symbol(self, sym):
        if sym is None or isinstance(sym, bytes):
            return b"\0" + name(sym or b"")
        if sym in PRIMITIVES:
            return b"\1" + number(PRIMITIVES.index(sym), 1)
        return b"\2" + u32(self.grammar.numbers[sym])

    def attribute(self, text):
        return u32(self.names.index(text))

    def field(self, text):
        return {"start": b"\1", "end": b"\2"}.get(text) or b"\0" + self.attribute(text)

    def expressions(self, es):
        return b"".join(self.expression(e) for e in es)

    def expression(self, e):
        kind = e[0]
        if kind == "num":
            return b"\0" + number(e[1], 8)
        if kind in ("eoi", "loop"):
            return b"\1" if kind == "eoi" else b"\4"
        if kind in ("own", "outer"):
            return (b"\2" if kind == "own" else b"\3") + self.attribute(e[1])
        if kind == "seen":
            return b"\5" + u32(e[1]) + self.symbol(e[2]) + self.field(e[3])
        if kind == "item":
            return b"\6" + u32(e[1]) + self.expression(e[2]) + self.field(e[3])
        if kind == "after":
            return b"\7" + u32(e[1]) + self.expression(e[2])
        tag = TAGS.get((kind, len(e) - 1))
        head = number(tag, 1) if tag else b"\x0a" + number(OPERATORS.index(kind), 1)
        return head + self.expressions(e[1:])


# ---- against the program


def body_of(file):
    size = int.from_bytes(file[8:16], "little")
    return file[16:16 + size]


def due_of(rules):
    """The status, and the body where there is one."""
    try:
        return 0, Body(rules).written()
    except Refused:
        return 2, b""


def got_of(program, text):
    status, said = program.run("table", program.file("g", text.encode()))
    return status, body_of(said.encode("latin-1")) if status == 0 else b""


def main(command, count=1000, seed=1):
    rng = random.Random(int(seed))
    files = 0
    with tempfile.TemporaryDirectory() as folder:
        program = Program(os.path.abspath(command), folder)
        while files < int(count):
            rules = Maker(rng).grammar()
            text = Writer(rng).grammar(rules)
            due, got = due_of(rules), got_of(program, text)
            if got != due:
                print("tables: %s\n  got %r\n  due %r" % (text, got, due))
                return 1
            files += due[0] == 0
    print("tables: the bodies of %d random grammars are as a second writer has them" % files)
    return 0


if __name__ == "__main__":
    sys.exit(main(*sys.argv[1:]))
