"""What `json` writes, read by another reader of JSON, against the printed tree of `parse`, line by line.

  json_trees.py COMMAND [COUNT [SEED]]

Taken are the samples of formats/, COUNT random grammars with inputs (300 if it isn't given), and real files of the built-in
grammars. Each text is also held against the schema in docs/JSON.md, key by key. Where there is no tree, `json` says what `parse`
says. Ends with status 1 where something differs.
"""

import json
import os
import random
import re
import subprocess
import sys
import tempfile

HERE = os.path.dirname(os.path.abspath(__file__))
FORMATS = os.path.join(os.path.dirname(HERE), "formats")
PAGE = os.path.join(os.path.dirname(HERE), "docs", "JSON.md")
sys.path.insert(0, FORMATS)
sys.dont_write_bytecode = True
import samples  # noqa: E402
from random_grammars import WANTED, Writer, random_case  # noqa: E402
from real_files import found  # noqa: E402

# A file of each kind with more lines than this takes the check too long.
MOST_BYTES = 200_000


def run(command, words):
    return subprocess.run(command + words, stdin=subprocess.DEVNULL, capture_output=True, timeout=600)


def hex_of(one):
    return (one["hex"] or "-") + ("+%d" % one["more"] if one.get("more") else "")


def line_of(one, depth):
    """The printed line of an object."""
    if "rule" in one:
        words = [one["rule"], one["from"], one["to"], "start=%d" % one["start"], "end=%d" % one["end"]]
        words += ["%s=%d" % pair for pair in one["attrs"].items()]
    elif "items" in one:
        kind = "for" if "for" in one else "many"
        words = [kind, one[kind], len(one["items"])]
    elif "hex" in one:
        words = [one["prim"], one["from"], one["to"], hex_of(one)]
    else:
        values = ["%s=%d" % (name, one[name]) for name in ("val", "hi", "lo") if name in one]
        words = [one["prim"], one["from"], one["to"], *values]
    return " ".join(map(str, [depth, *words]))


def lines_of(tree):
    """The printed lines of a text's tree, without recursion."""
    lines, left = [], [(tree, 0)]
    while left:
        one, depth = left.pop()
        lines.append(line_of(one, depth))
        left += [(kid, depth + 1) for kid in reversed(one.get("kids", one.get("items", [])))]
    return lines


def keys_of_schema():
    """The sets of keys that the page's schema allows, each with those that it wants."""
    with open(PAGE, encoding="utf-8") as file:
        schema = json.loads(re.search(r"```json\n(.*?)```", file.read(), re.S)[1])
    forms = schema["$defs"].values()
    return [(set(form["properties"]), set(form["required"])) for form in forms if "properties" in form and "required" in form]


def fits(tree, forms):
    """Whether each object of the text has the keys of one of the forms."""
    left = [tree]
    while left:
        one = left.pop()
        if not any(wanted <= set(one) <= allowed for allowed, wanted in forms):
            return False
        left += one.get("kids", one.get("items", []))
    return True


def why_differs(command, grammar, path, forms):
    """What differs of a grammar and a file, or None."""
    parsed, done = run(command, ["parse", grammar, path]), run(command, ["json", grammar, path])
    if done.returncode != parsed.returncode:
        return "status %d, where %d is due" % (done.returncode, parsed.returncode)
    if parsed.returncode:
        return None if done.stdout == parsed.stdout else "%r is said" % done.stdout[:60]
    if done.stdout.count(b"\n") != 1 or not done.stdout.endswith(b"\n"):
        return "it is no single line"
    tree = json.loads(done.stdout)
    if not fits(tree, forms):
        return "an object isn't of the schema"
    due = parsed.stdout.decode().splitlines()
    return next(("%r, where %r is due" % pair for pair in zip(lines_of(tree), due) if pair[0] != pair[1]),
                None if len(lines_of(tree)) == len(due) else "another number of lines")


def cases(folder, count, seed):
    """A name, a grammar and a file for each case."""
    for name, sample in sorted(samples.SAMPLES.items()):
        path = os.path.join(folder, name)
        with open(path, "wb") as file:
            file.write(sample())
        yield name, os.path.join(FORMATS, name + ".ipg"), path
    rng = random.Random(seed)
    for case in range(count):
        rules, data, _ = random_case(rng, WANTED[case % len(WANTED)])
        grammar, path = os.path.join(folder, "g"), os.path.join(folder, "f")
        for place, content in ((grammar, Writer(rng).grammar(rules).encode()), (path, data)):
            with open(place, "wb") as file:
                file.write(content)
        yield f"random {case}", grammar, path
    for kind in ("gif", "pe", "elf"):
        for path in [path for path in found(kind) if os.path.getsize(path) < MOST_BYTES][:10]:
            yield path, "@" + kind, path


def main():
    command = [os.path.abspath(sys.argv[1])]
    count = int(sys.argv[2]) if len(sys.argv) > 2 else 300
    seed = int(sys.argv[3]) if len(sys.argv) > 3 else 1
    sys.setrecursionlimit(10_000)
    forms, tried, failed = keys_of_schema(), 0, 0
    with tempfile.TemporaryDirectory() as folder:
        for name, grammar, path in cases(folder, count, seed):
            why, tried = why_differs(command, grammar, path, forms), tried + 1
            if why is not None:
                failed += 1
                print(f"json: {name}: {why}")
    print(f"json: {tried} texts beside printed trees, seed {seed}: {failed} differ")
    return int(failed > 0)


if __name__ == "__main__":
    sys.exit(main())
