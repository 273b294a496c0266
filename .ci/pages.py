"""The commands on pages for users: each is run, and what it prints is what the page says.

  pages.py COMMAND PAGE..

A block ```ipg whose first line is `# NAME.ipg` is put into the file NAME.ipg. In a block ```console a line `$ ..` is a command, with
lines `> ..` that go on with it, and the lines behind it are its output. All blocks of a page run in one new folder, in which
`ipg` is COMMAND and `formats` the folder of that name. Ends with status 1 where something differs.
"""

import os
import re
import subprocess
import sys
import tempfile

TOP = os.path.dirname(os.path.dirname(os.path.abspath(__file__)))


def blocks(text):
    """The kind, the lines and the place of each fenced block."""
    found = re.finditer(r"^```(\w*)\n(.*?)^```$", text, re.M | re.S)
    return [(block[1], block[2].splitlines(), text[:block.start()].count("\n") + 2) for block in found]


def commands(lines):
    """The commands of a block, each with the lines that are due behind it."""
    asked = []
    for line in lines:
        if line.startswith("$ "):
            asked.append(([line[2:]], []))
        elif line.startswith("> ") and asked and not asked[-1][1]:
            asked[-1][0].append(line[2:])
        elif asked:
            asked[-1][1].append(line)
    return [("\n".join(words), due) for words, due in asked]


def is_as_said(page, place, command, due, folder):
    environment = dict(os.environ, PATH=os.path.join(folder, "bin") + os.pathsep + os.environ["PATH"], LC_ALL="C")
    work = os.path.join(folder, "work")
    said = subprocess.run(["bash", "-c", command], cwd=work, env=environment, stdin=subprocess.DEVNULL,
                          stdout=subprocess.PIPE, stderr=subprocess.STDOUT, timeout=60).stdout.decode("utf-8", "replace").splitlines()
    if said == due:
        return True
    print(f"pages: {page}:{place}: $ {command}\n  printed\n    " + "\n    ".join(said) + "\n  due\n    " + "\n    ".join(due), file=sys.stderr)
    return False


def wrong(page, command):
    """How many commands of a page print something else, and how many it has."""
    with open(os.path.join(TOP, page), encoding="utf-8") as file:
        text = file.read()
    differ = count = 0
    with tempfile.TemporaryDirectory() as folder:
        os.mkdir(os.path.join(folder, "bin"))
        os.mkdir(os.path.join(folder, "work"))
        os.symlink(os.path.abspath(command), os.path.join(folder, "bin", "ipg"))
        os.symlink(os.path.join(TOP, "formats"), os.path.join(folder, "work", "formats"))
        for kind, lines, place in blocks(text):
            name = re.fullmatch(r"# (\S+\.ipg)", lines[0]) if kind == "ipg" else None
            if name:
                with open(os.path.join(folder, "work", name[1]), "w", encoding="utf-8") as file:
                    file.write("\n".join(lines) + "\n")
            for words, due in commands(lines) if kind == "console" else []:
                count += 1
                differ += not is_as_said(page, place, words, due, folder)
    return differ, count


def main():
    failed = False
    for page in sys.argv[2:]:
        differ, count = wrong(page, sys.argv[1])
        print(f"pages: {page}: {count} commands, {differ} of them wrong")
        failed = failed or differ or not count
    return 1 if failed else 0


if __name__ == "__main__":
    sys.exit(main())
