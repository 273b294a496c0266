"""Whether each number of the grammars in formats/ has a name: an attribute of its alternative that is its value, or both halves of it.

  labels.py COMMAND [GRAMMAR..]     COMMAND fmt GRAMMAR is run, of all grammars of formats/ where none is named

A number is a slot of a primitive, or of a rule each of whose alternatives sets `val`. None is due of an item of an array: its rule is
its name, where it has that number alone. None is due of a part of a number either, from which its alternative works out `val`, as of
the bytes of LEB128: that is named where the rule is called.

Ends with status 1 where a number has no name.
"""

import collections
import os
import re
import subprocess
import sys

FOLDER = os.path.join(os.path.dirname(os.path.dirname(os.path.abspath(__file__))), "formats")
NUMBERS = ("U8", "U16LE", "U16BE", "U32LE", "U32BE", "U64LE", "U64BE")
TOKEN = re.compile(r'"(?:[^"\\]|\\.)*"|[^\s"]+')
CLOSES = {"[": "]", "{": "}", "(": ")"}
# A slot of an alternative: its symbol, and whether it is the item of an array; or an attribute, with its expression's tokens.
Slot = collections.namedtuple("Slot", "symbol item")
Set = collections.namedtuple("Set", "name tokens")


def upto_close(tokens, at):
    """The place behind the bracket that closes the one at a place."""
    depth = 0
    for place in range(at, len(tokens)):
        depth += (tokens[place] in CLOSES) - (tokens[place] in CLOSES.values())
        if depth == 0:
            return place + 1
    raise ValueError("a bracket is open")


def branches(tokens):
    """The slots of a switch: what stands behind a condition, and behind `else`."""
    at = 0
    while at < len(tokens):
        if tokens[at] == "case":
            at = upto_close(tokens, at + 1)
            yield Slot(tokens[at], False)
        elif tokens[at] == "else":
            yield Slot(tokens[at + 1], False)
        at += 1


def term(tokens, at):
    """What stands in the term at a place, and the place behind it."""
    word = tokens[at]
    if word == "{":
        behind = upto_close(tokens, at)
        return [Set(tokens[at + 1], tokens[at + 3:behind - 1])], behind
    if word == "?":
        return [], upto_close(tokens, at + 1)
    if word == "switch":
        behind = upto_close(tokens, at + 1)
        return list(branches(tokens[at + 2:behind - 1])), behind
    if word in ("for", "many"):
        at = tokens.index("do", at) if word == "for" else at
        slot, behind = Slot(tokens[at + 1], True), at + 2
    else:
        slot, behind = Slot(word, False), at + 1
    return [slot], upto_close(tokens, behind) if behind < len(tokens) and tokens[behind] == "[" else behind


def alternatives(tokens, at, rules):
    """The alternatives of a rule from the place behind its arrow on; rules behind `where` go to the others. And the place behind it."""
    found = [[]]
    while tokens[at] != ";":
        if tokens[at] == "/":
            found.append([])
            at += 1
        elif tokens[at] == "where":
            at += 2
            while tokens[at] != "}":
                at = rule(tokens, at, rules)
            at += 1
        else:
            parts, at = term(tokens, at)
            found[-1] += parts
    return found, at + 1


def rule(tokens, at, rules):
    name = tokens[at]
    rules[name], at = alternatives(tokens, at + 2, rules)
    return at


def rules_of(text):
    """The alternatives of each rule of a canonical text, local rules too: no two have one name."""
    tokens, rules, at = TOKEN.findall(text), {}, 0
    while at < len(tokens):
        at = rule(tokens, at, rules)
    return rules


def nearest(parts, symbol, at):
    """The slot of a symbol that is meant at a place: the nearest to the left, else to the right."""
    places = [n for n, part in enumerate(parts) if isinstance(part, Slot) and part.symbol == symbol and not part.item]
    left = [n for n in places if n < at]
    return left[-1] if left else places[0] if places else None


def read_by(tokens):
    """The symbol that an expression reads, and nothing else: its value, a half, or both halves put together, with a sign or without."""
    text = " ".join(tokens)
    half = r"\( (?P<s>\w+) \. hi < 2147483648 \? (?P=s) \. hi : (?P=s) \. hi - 4294967296 \)"
    forms = (r"(\w+) \. (?:val|hi|lo)", r"\(? ?(\w+) \. hi \* 4294967296 ?\)? \+ \1 \. lo", half + r" \* 4294967296 \+ (?P=s) \. lo")
    for form in forms:
        found = re.fullmatch(form, text)
        if found:
            return found[1]
    return None


def named(parts):
    """The places of slots that an attribute names, and of those that `val` is worked out from."""
    exact, mentioned = set(), set()
    for at, part in enumerate(parts):
        if not isinstance(part, Set):
            continue
        symbol = read_by(part.tokens)
        if symbol:
            exact.add(nearest(parts, symbol, at))
        if part.name == "val":
            mentioned |= {nearest(parts, part.tokens[n - 1], at) for n, token in enumerate(part.tokens) if token == "."}
    return exact, mentioned


def items_alone(rules):
    """The rules that are called as items of arrays alone, and have one slot."""
    called = [part for parts in rules.values() for alternative in parts for part in alternative if isinstance(part, Slot)]
    others = {part.symbol for part in called if not part.item}
    return {name for name, found in rules.items() if name not in others and {part.symbol for part in called} >= {name}
            and all(sum(isinstance(part, Slot) for part in alternative) == 1 for alternative in found)}


def nameless(text):
    """The numbers without a name, each as its rule, the number of its alternative, and its symbol; and how many numbers there are."""
    rules = rules_of(text)
    numbers = {name for name, found in rules.items()
               if all(any(isinstance(part, Set) and part.name == "val" for part in parts) for parts in found)} | set(NUMBERS)
    alone, wrong, count = items_alone(rules), [], 0
    for name, found in rules.items():
        for number, parts in enumerate(found):
            exact, mentioned = named(parts)
            for at, part in enumerate(parts):
                if isinstance(part, Slot) and part.symbol in numbers and not part.item and name not in alone:
                    count += 1
                    if at not in exact | mentioned:
                        wrong.append(f"{name}/{number} {part.symbol}")
    return wrong, count


def main():
    paths = sys.argv[2:] or sorted(os.path.join(FOLDER, name) for name in os.listdir(FOLDER) if name.endswith(".ipg"))
    numbers, missing = 0, 0
    for path in paths:
        text = subprocess.run([sys.argv[1], "fmt", path], capture_output=True, check=True).stdout.decode("ascii")
        wrong, count = nameless(text)
        numbers, missing = numbers + count, missing + len(wrong)
        for one in wrong:
            print(f"labels: {os.path.basename(path)}: {one} has no name", file=sys.stderr)
    print(f"labels: {numbers} numbers of {len(paths)} grammars, {missing} of them without a name")
    return 1 if missing else 0


if __name__ == "__main__":
    sys.exit(main())
