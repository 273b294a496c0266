"""Grammars that ask much of `check`, and what they may cost: hostile_texts.py FOLDER

Writes each grammar to a file of FOLDER, and a line for each on standard output, its parts separated by tabs: what it is, the
file, seconds, megabytes, and `any` where every answer will do, else `answer`: then it has to be accepted or refused.
"""

import functools
import os
import random
import sys

LIMIT = 1 << 20


def within(count, first, around):
    """A condition, put `count` times into another."""
    return functools.reduce(lambda inner, k: around % {"inner": inner, "more": k, "less": k + 3}, range(count), first)


def alternatives(alts):
    return " / ".join(alts) + ' / "" ;\n'


# -- conditions that are deep


def and_or(count):
    return "S -> ?(%s) S[1, EOI] / \"\" ;\n" % within(count, "EOI > 9", "(%(inner)s || EOI > %(more)d) && EOI < %(less)d")


def choices(count, called="S"):
    test = within(count, "EOI > 9", "(%(inner)s ? EOI > %(more)d : EOI < %(less)d)")
    return f'S -> ?({test}) {called}[1, EOI] / "" ;\n' + ("A -> U8 ;\n" if called == "A" else "")


def greatest(count):
    """A value chosen by comparing one that is chosen so itself, and so on."""
    value = functools.reduce(lambda inner, k: f"({inner} > U8.val * {k + 1} ? U8.val : U16LE.val)", range(count), "EOI")
    return f'S -> U8 U16LE {{ most = {value} }} S[most + 1, EOI] / "" ;\n'


# -- conditions over many values


def weights(count):
    """Even weights of bits, of which an odd sum is asked."""
    numbers = random.Random(count)
    of = [2 * numbers.randrange(50_000, 500_000) for _ in range(count)]
    bits = " ".join(f"V{k}" for k in range(count))
    small = " ".join(f"?(V{k}.bit <= 1)" for k in range(count))
    total = " + ".join(f"V{k}.bit * {weight}" for k, weight in enumerate(of))
    rules = "".join(f"V{k} -> U8 {{ bit = U8.val }} ;\n" for k in range(count))
    return f'S -> {bits} {small} ?({total} == {sum(of) // 2 | 1}) S[0, EOI] / "" ;\n{rules}'


def parity():
    return 'S -> U16LE[0, 2] ?(2 * U16LE.val == 2 * EOI + 1) S[0, EOI] / "" ;\n'


# -- many calls


def repetitions(count):
    return "S -> " + "many U8 " * count + 'S[0, EOI] / "" ;\n'


def two_sets(count):
    """Rules of one set call those of the other on long parts, and are called back on short ones."""

    def rules(name, to, test):
        return "".join(f"{name}{k} -> " + alternatives(f"?({test}) {to}{j}" for j in range(count)) for k in range(count))

    return rules("A", "B", "EOI > 5") + rules("B", "A", "EOI < 6")


def wide():
    return "S -> " + " / ".join("S " * 255 + "U8" for _ in range(64)) + " ;\n"


def late():
    return "S -> " + alternatives("U8 " + "B " * 250 + "S" for _ in range(63)) + 'B -> U8 / "" ;\n'


def leaves():
    rules = (f"R{k} -> " + alternatives("U8 " + "B " * 120 + f"R{(k + 1) % 30}[1, EOI]" for _ in range(60)) for k in range(30))
    return "".join(rules) + 'B -> U8 / "" ;\n'


# -- many rules


def ring_of_locals():
    """The attributes of a holder, one from the other, and local rules in a ring that read the last."""
    values = "{ a0 = EOI }" + "".join(f"{{ a{k} = a{k - 1} + 1 }}" for k in range(1, 250))
    rules = "".join(f'L{k} -> ?(a249 > EOI) L{(k + 1) % 1000} / "" ;' for k in range(1000))
    return f"S -> {values} L0 where {{ {rules} }} ;\n"


def dense_locals():
    values = "".join(f"{{ a{k} = 1 }}" for k in range(200))

    def rule(k):
        calls = "".join(f"L{(13 * k + 7 * j) % 1000}[1, EOI]" for j in range(80))
        return f"L{k} -> {calls}" + "".join(f"?(a{(k + j) % 200})" for j in range(5)) + ";"

    return f"S -> {values} L0[1, EOI] where {{ {''.join(map(rule, range(1000)))} }} ;\n"


def diamonds():
    """Two ways from each rule to the next, on long parts, and a call of the first on short ones."""
    rules = (
        f'R{k} -> ?(EOI > 5) R{k + 1} / ?(EOI > 5) M{k} / "" ;\nM{k} -> ?(EOI > 5) R{k + 1} / "" ;\n' for k in range(300)
    )
    return "".join(rules) + 'R300 -> ?(EOI < 6) R0 / "" ;\n'


# -- intervals left out


def terminal():
    head = 'S -> "' + "a" * 10_000 + '" switch { '
    return head + "case (1) U8 " * ((LIMIT - len(head) - 20) // 12) + "else U8 } ;\n"


def many_then_switch():
    return "S -> " + "many U8 " * 255 + "switch { " + "case(1)U8 " * 100_000 + "else U8 } ;\n"


ROWS = [
    *((f"`((w || b) && c)` nested {n}", and_or(n), 10, 1200, "any") for n in (16, 18, 20)),
    *((f"`(w ? a : b)` nested {n}", choices(n), 10, 1200, "any") for n in (20, 22, 31)),
    ("`(w ? a : b)` nested 20, on no cycle", choices(20, "A"), 0.1, 1200, "answer"),
    ("a parity of 32 bits, on no cycle", 'S -> U32LE A[2 * U32LE.val + 1 - 2 * EOI, EOI] / "" ;\nA -> U8 ;\n', 0.1, 100, "answer"),
    *((f"{n} repetitions and a call of the rule itself", repetitions(n), s, 300, "answer") for n, s in ((80, 0.5), (120, 1), (255, 5))),
    ("greatest of values by 10 conditionals", greatest(10), 0.1, 1200, "answer"),
    ("greatest of values by 12 conditionals", greatest(12), 1, 1200, "answer"),
    *((f"{n} even weights, an odd sum", weights(n), 10, 1200, "any") for n in (14, 15)),
    ("a parity of two bytes", parity(), 10, 1200, "any"),
    *((f"two sets of {n} rules that all call each other", two_sets(n), 5, 1200, "answer") for n in (7, 8)),
    ("64 alternatives of 255 calls of the rule itself", wide(), 2, 1200, "answer"),
    ("63 alternatives, 250 slots before a call", late(), 10, 1200, "answer"),
    ("30 rules of 60 alternatives of 120 calls", leaves(), 2, 1200, "answer"),
    ("a ring of 1,000 local rules, 250 attributes", ring_of_locals(), 10, 1200, "answer"),
    ("1,000 local rules of 80 calls", dense_locals(), 10, 1200, "answer"),
    ("300 diamonds and a call back", diamonds(), 10, 1200, "answer"),
    ("a terminal of 10,000 bytes, an open switch", terminal(), 60, 1200, "any"),
    ("255 `many U8`, a switch of 100,000 branches", many_then_switch(), 60, 1200, "any"),
]


def main():
    folder = sys.argv[1]
    for number, (name, text, seconds, megabytes, answer) in enumerate(ROWS):
        path = os.path.join(folder, f"{number:02}.ipg")
        with open(path, "wb") as file:
            file.write(text.encode())
        print(name, path, seconds, megabytes, answer, sep="\t")


main()
