"""What `verify` says of certificates against a second checker: those that `cert` writes for the built-in grammars, those of
`formats/` and random ones, those from outside, and each of them changed.

  second_opinions.py COMMAND [COUNT [SEED]]

COUNT random grammars are taken that are accepted. The second checker is itself held to answers and conditions from outside.
Ends with status 1 where something differs, or one of the four answers never comes.
"""

import json
import os
import random
import re
import sys
import tempfile
from collections import Counter
from concurrent.futures import ThreadPoolExecutor
from itertools import count as numbers_from

from random_grammars import Grammar, Maker, Program, Refused, Writer
from second_checker import DEEPEST, Any, Text, edges_of, keep, root, verdict

BUILT_INS = ["elf", "pe", "gif", "pcap"]
HERE = os.path.dirname(os.path.abspath(__file__))
VERIFIED = 0, "verified\n"
# how many runs of the program are under way at once
AT_ONCE = 4


class Opinions:
    """The program, and files for it that are never used twice."""

    def __init__(self, command, folder, pool):
        self.program, self.pool, self.numbers = Program(command, folder), pool, numbers_from()

    def asked(self, word, *contents):
        return self.program.run(word, *[self.program.file(str(next(self.numbers)), content) for content in contents])

    def certified(self, grammars):
        """Those that are accepted, each with a certificate that proves it."""
        answers = self.pool.map(lambda grammar: self.asked("cert", grammar), grammars)
        return [(grammar, text.encode("latin-1")) for grammar, (status, text) in zip(grammars, answers) if status == 0]

    def random_ones(self, rng, count):
        made = []
        while len(made) < count:
            made += self.certified([random_text(rng) for _ in range(2 * count)])
        return made[:count]

    def differing(self, cases):
        """How often each kind of answer came, and how many differ, which are printed."""
        kinds, differing = Counter(), 0
        for case, got in zip(cases, self.pool.map(lambda case: self.asked("verify", *case), cases)):
            own = verdict(*case)
            kinds[" ".join(own[1].split()[:2])] += 1
            if own != got:
                differing += 1
                print("second checker: verify says %r and it %r of\n%s\n%r" % (got, own, case[0].decode("latin-1"), case[1]))
        return kinds, differing


# ---- grammars

def random_text(rng):
    """The text of a random grammar with calls that go anywhere, whose terms have an order and whose repetitions touch."""
    while True:
        rules = Maker(rng, True).grammar()
        try:
            Grammar(rules)
        except Refused:
            continue
        return Writer(rng).grammar(rules).encode()


def written_by_hand(program):
    """The built-in grammars and those of `formats/`."""
    folder = os.path.join(os.path.dirname(HERE), "formats")
    for name in ["@" + name for name in BUILT_INS] + [os.path.join(folder, name) for name in sorted(os.listdir(folder)) if name.endswith(".ipg")]:
        yield program.run("fmt", name)[1].encode("latin-1")


def vectors(kind):
    with open(os.path.join(HERE, "vectors", kind + ".json")) as file:
        return json.load(file)


def from_outside():
    """Grammars and certificates, each with the answer that is due."""
    cases = vectors("certificates")
    return [((case["grammar"].encode("latin-1"), case["cert"].encode("latin-1")), (case["status"], case["says"])) for case in cases]


# ---- the second checker's conditions, as the vectors have them

def lines_of(member, depth):
    """The lines of a member; a part with one member is written as that."""
    indent = "  " * depth
    if not isinstance(member, Any):
        terms = ["%d*v%d" % (n, v) for v, n in sorted(member.factors.items())]
        yield indent + " + ".join(terms + [str(member.constant)]) + " <= 0"
        return
    yield indent + "any"
    for part in member.parts:
        if len(part) != 1:
            yield indent + "  all"
        for one in part:
            yield from lines_of(one, depth + (1 if len(part) == 1 else 2))


def conditions(text):
    """The lines of each edge: from where it leads, its conditions, and the bounds of their variables."""
    grammar = Grammar(Text(text).grammar())
    marks = grammar.must_touch()
    for number, edge in enumerate(edges_of(grammar)):
        facts, variables = root([keep(grammar, marks, edge)])
        caller, callee = [grammar.entries[rule][0].name for rule in (edge.rule, edge.callee)]
        yield "%d %s/%d/%d/%d to %s" % (number, caller, edge.alt, edge.term, edge.branch, callee)
        yield "all"
        for member in facts[2 * variables:]:
            yield from lines_of(member, 1)
        for v in range(variables):
            yield "v%d from %d to %d" % (v, facts[2 * v].constant, -facts[2 * v + 1].constant)


def other_conditions(cases):
    """How many grammars from outside have other conditions here than are due."""
    return sum("".join(line + "\n" for line in conditions(case["grammar"].encode("latin-1"))) != case["says"] for case in cases)


# ---- changes

def entries_or(rng, text, pattern):
    """What a pattern finds, mostly in lines of entries where there are any, else in the whole text."""
    lines = [found.span() for found in re.finditer(rb"(?m)^\d.*$", text)]
    found = list(re.finditer(pattern, text))
    within = [one for one in found if any(first <= one.start() < last for first, last in lines)]
    return within if within and rng.random() < 0.8 else found


def with_number(rng, text):
    """One number another: a next one, one from elsewhere, or one at an end of its range."""
    found = entries_or(rng, text, rb"\d+")
    if not found:
        return text
    place = rng.choice(found)
    n, other = int(place[0]), int(rng.choice(found)[0])
    put = rng.choice(3 * [n + 1, max(n - 1, 0), other] + [0, 2 ** 32 - 1, 2 ** 32, 2 ** 40 + 1, 2 ** 64 - 1, 2 ** 64])
    return text[:place.start()] + b"%d" % put + text[place.end():]


def without_line(rng, text):
    """Without a line; mostly an entry, which then isn't counted either."""
    found = entries_or(rng, text, rb"(?m)^.*\n")
    if not found:
        return text
    line = rng.choice(found)
    head = text[:line.start()]
    if line[0][:1].isdigit() and rng.random() < 0.7:
        head = re.sub(rb"(dead|cycles) (\d+)\n((?:\d.*\n)*)$", lambda m: b"%s %d\n%s" % (m[1], int(m[2]) - 1, m[3]), head)
    return head + text[line.end():]


def with_lines_swapped(rng, text):
    found = entries_or(rng, text, rb"(?m)^.*\n")
    if not found:
        return text
    first, second = sorted((rng.choice(found), rng.choice(found)), key=lambda line: line.start())
    if first.start() == second.start():
        return text
    return text[:first.start()] + second[0] + text[first.end():second.start()] + first[0] + text[second.end():]


def cut(rng, text):
    return text[:rng.randrange(len(text) + 1)]


CHANGES = [with_number, with_number, with_number, without_line, with_lines_swapped, cut]


def main(command, count=200, seed=1):
    sys.setrecursionlimit(DEEPEST)
    rng = random.Random(seed)
    with tempfile.TemporaryDirectory() as folder, ThreadPoolExecutor(AT_ONCE) as pool:
        opinions = Opinions(command, folder, pool)
        by_hand = opinions.certified(list(written_by_hand(opinions.program)))
        made, given = by_hand + opinions.random_ones(rng, count), from_outside()
        cases = made + [case for case, _ in given]
        changed = [(grammar, change(rng, text)) for grammar, text in cases for change in CHANGES]
        kinds, differing = opinions.differing(cases + changed)
    unproved = sum(verdict(*case) != VERIFIED for case in made)
    undue = sum(verdict(*case) != due for case, due in given)
    conditioned = vectors("conditions")
    others = other_conditions(conditioned)
    print("second checker: %d certificates of `cert`, %d of them for grammars by hand, %d from outside, %d changed: %s"
          % (len(made), len(by_hand), len(given), len(changed), ", ".join("%d %s" % (n, kind) for kind, n in sorted(kinds.items()))))
    print("second checker: %d answers differ, %d of `cert` prove nothing, %d from outside aren't as due" % (differing, unproved, undue))
    print("second checker: of %d grammars from outside %d have other conditions" % (len(conditioned), others))
    return 1 if differing or unproved or undue or others or len(by_hand) < len(BUILT_INS) or len(kinds) != 4 else 0


if __name__ == "__main__":
    sys.exit(main(sys.argv[1], *map(int, sys.argv[2:])))
