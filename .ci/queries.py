"""The paths of docs/QUERY.md over the built-in formats: what each picks of real files, against what another program says.

  queries.py COMMAND gif|pe|elf|pcap

COMMAND query @elf FILE PATH (or @gif, @pe, @pcap) is run for each path of the page and for a few files of that kind. Ends with
status 1 where something differs or a path isn't on the page, and with 77 where the other program or the files are missing.
"""

import os
import re
import subprocess
import sys
import tempfile

from real_files import OTHER, captures, found, pe_sections, said

PAGE = os.path.join(os.path.dirname(os.path.dirname(os.path.abspath(__file__))), "docs", "QUERY.md")
MOST = 12
SECTIONS = {"UND": 0, "ABS": 0xFFF1, "COM": 0xFFF2}


def header_number(path, what):
    return [int(re.search(what + r": +(\d+)", said(["readelf", "-h", path])).group(1))]


def section_places(path):
    rows = re.findall(r"^ +\[ *\d+\] .* [0-9a-f]{8,16} ([0-9a-f]{6,}) [0-9a-f]{6,} ", said(["readelf", "-S", "-W", path]), re.M)
    return [int(row, 16) for row in rows]


def symbols(path):
    """The words of each line of the symbol table."""
    table = re.search(r"'\.symtab' contains \d+ entr.*\n.*\n((?: +\d+: .*\n)*)", said(["readelf", "-s", "-W", path]))
    return [line.split() for line in table.group(1).splitlines()] if table else []


def section_number(word):
    return SECTIONS[word] if word in SECTIONS else int(word)


def image_sections(path):
    sections = pe_sections(path)
    return None if sections is None else [address for address, _ in sections]


def gif_numbers(path, pattern):
    done = subprocess.run(["giftext", path], capture_output=True, timeout=600)
    return None if done.returncode else [int(number) for number in re.findall(pattern, done.stdout.decode(errors="replace"))]


def packet_numbers(path, pattern):
    return [int(number) for number in re.findall(pattern, said(["tcpdump", "-n", "-tt", "-Z", "root", "-r", path]), re.M)]


# what the other program says of a file, None where it says nothing
DUE = {
    "elf": {
        "Head.phnum": lambda path: header_number(path, "Number of program headers"),
        "Head.shnum": lambda path: header_number(path, "Number of section headers"),
        "Sh.off": section_places,
        "**/Sym.shndx": lambda path: [section_number(words[6]) for words in symbols(path)],
        "Syms/Sym/Addr(1).lo": lambda path: [int(words[2], 0) for words in symbols(path)],
    },
    "pe": {"Sect.vaddr": image_sections},
    "gif": {
        "Screen.width": lambda path: gif_numbers(path, r"Screen Size - Width = (\d+)"),
        "**/Image.height": lambda path: gif_numbers(path, r"Image Size - .* Height = (\d+)"),
    },
    "pcap": {
        "Rec.sec": lambda path: packet_numbers(path, r"^(\d+)\.\d+ IP "),
        "**/Udp.dst": lambda path: packet_numbers(path, r"> [\d.]+\.(\d+): UDP, "),
    },
}


def picked(command, kind, file, path):
    """The numbers that the path picks; None where the program ends with another status than 0."""
    done = subprocess.run([command, "query", "@" + kind, file, path], capture_output=True, timeout=600)
    return None if done.returncode else [int(line) for line in done.stdout.split()]


def wrong(command, kind, files):
    """What is picked otherwise than the other program has it, with the file and the path."""
    for file in files:
        for path, due_of in DUE[kind].items():
            due = due_of(file)
            got = picked(command, kind, file, path) if due is not None else None
            if got != due:
                yield f"{file}: {path}: {OTHER[kind]} says {due}, the query {got}"


def files_of(kind, folder):
    """Some files; of ELF those with symbols first."""
    if kind == "pcap":
        return captures(folder, 2)
    files = found(kind)
    return sorted(files, key=lambda path: not symbols(path))[:MOST] if kind == "elf" else files[:MOST]


def main():
    command, kind = sys.argv[1:3]
    with open(PAGE, encoding="utf-8") as file:
        page = file.read()
    absent = [path for path in DUE[kind] if f"| `{path}` | `@{kind}` |" not in page]
    if subprocess.run(["which", OTHER[kind]], capture_output=True).returncode:
        print(f"queries: {kind} skipped, for want of {OTHER[kind]}")
        return 77
    with tempfile.TemporaryDirectory() as folder:
        files = files_of(kind, folder)
        if not files:
            print(f"queries: {kind} skipped, for want of files")
            return 77
        faults = [f"{path} isn't on the page" for path in absent] + list(wrong(command, kind, files))
    for fault in faults:
        print(f"queries: {kind}: {fault}"[:600])
    print(f"queries: {kind}: {len(DUE[kind])} paths on {len(files)} files, {len(faults)} differ from {OTHER[kind]}")
    return 1 if faults else 0


if __name__ == "__main__":
    sys.exit(main())
