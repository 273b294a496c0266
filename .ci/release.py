"""What a release says of itself, held against what is there: the version, the systems, the lines that an auditor reads, the steps of a host's checks.

  release.py version        each place that has the version has the program's
  release.py systems        docs/INSTALL.md's table of systems says what the symbols of the kept files ask for, and which instructions they have
  release.py audit          docs/AUDIT.md counts the lines of the definitions as they are, and names wrong bodies that are there
  release.py counts         writes these counts into docs/AUDIT.md
  release.py links          each link of a page leads to a file that is there
  release.py workflows      each step of .github/workflows runs a script that is there
"""

import glob
import os
import re
import subprocess
import sys

TOP = os.path.dirname(os.path.dirname(os.path.abspath(__file__)))
sys.dont_write_bytecode = True


def text_of(name):
    with open(os.path.join(TOP, name), encoding="utf-8") as file:
        return file.read()


def said(*words):
    return subprocess.run(words, cwd=TOP, stdout=subprocess.PIPE, check=True, text=True, errors="replace").stdout


def told(what, wrong):
    for line in wrong:
        print(f"release: {line}", file=sys.stderr)
    print(f"release: {what}, {len(wrong)} wrong")
    return not wrong


# ---- the version: that of the program, which help's crate has

PLACES = {
    "lib/include/ipg.h": r'^#define IPG_VERSION "(.*)"$',
    "targets/package.json": r'^  "version": "(.*)",$',
    "docs/ipg.1": r"^\.Os ipg (.*)$",
    "docs/ipg-open.1": r"^\.Os ipg (.*)$",
    "docs/ipg-studio.1": r"^\.Os ipg (.*)$",
    "CHANGELOG.md": r"^## \[(\d.*)\] - \d{4}-\d\d-\d\d$",
}


def version():
    due = said("dist/ipg", "version").split()[1]
    found = {place: re.search(form, text_of(place), re.M) for place, form in PLACES.items()}
    had = {place: match and match[1] for place, match in found.items()}
    sys.path.insert(0, os.path.join(TOP, "lib", "python"))
    import ipg

    had["the package for Python"] = ipg.__version__
    return told(f"version {due} in {len(had)} places", [f"{place} has version {got}, due {due}" for place, got in had.items() if got != due])


# ---- the systems

def least(file, library="GLIBC"):
    """The newest version of the C library that a file's symbols ask for."""
    asked = re.findall(rf"Name: {library}_([\d.]+)", said("readelf", "-V", file))
    return max(asked, key=lambda text: [int(part) for part in text.split(".")])


def kernel(file):
    return re.search(r"OS: Linux, ABI: ([\d.]+)\.0$", said("readelf", "-nW", file), re.M)[1]


# an instruction that each later level of x86-64 brought, as compilers use it; those of glibc choose by the processor
LEVELS = {"x86-64-v2": r"\t(?:pinsrq|pextrq|ptest|pshufb) ", "x86-64-v3": r"%ymm"}


def level(file):
    listing = said("objdump", "-d", "--no-show-raw-insn", file)
    return ([name for name, form in LEVELS.items() if re.search(form, listing)] or ["x86-64"])[-1]


def libraries(file):
    return ", ".join(sorted(re.findall(r"DLL Name: (\S+)\.dll", said("objdump", "-p", file), re.I), key=str.lower))


def rows():
    """The rows that the files ask for."""
    yield f"| `dist/ipg` | glibc {least('dist/ipg')} | {level('dist/ipg')} |"
    yield f"| `dist/libipg.so` | glibc {least('dist/libipg.so')} | {level('dist/libipg.so')} |"
    # glibc has code for newer processors in it, so its level isn't read off; the module is that of dist/ipg
    yield f"| `dist/ipg-static` | Linux {kernel('dist/ipg-static')} | {level('dist/ipg')} |"
    yield f"| `dist/ipg-aarch64` | Linux {kernel('dist/ipg-aarch64')} | arm64 |"
    yield f"| `dist/libipg-aarch64.so` | glibc {least('dist/libipg-aarch64.so')} | arm64 |"
    for name in ("dist/ipg.exe", "dist/ipg.dll"):
        yield f"| `{name}` | {libraries(name)} of Windows | {level(name)} |"


def systems():
    page = text_of("docs/INSTALL.md")
    due = list(rows())
    wrong = [f"docs/INSTALL.md lacks the row {row}" for row in due if row not in page]
    packages = text_of("release/debs.sh")
    asked = [f"libc6 (>= {least(name)})" for name in ("dist/ipg", "dist/libipg.so")]
    return told(f"{len(due)} systems", wrong + [f"release/debs.sh lacks {text}" for text in asked if text not in packages])


# ---- what an auditor reads

ROW = re.compile(r"^(\| \[`[^`]*`\]\(\.\./(crates/[^)]*)\) \| )(\d+)(?= \|)", re.M)
TOTAL = re.compile(r"[\d,]+(?= lines; a wrong line)")


def lines_in(name):
    """The lines of a file of definitions, or of those of a folder."""
    path = os.path.join(TOP, name)
    files = [path] if os.path.isfile(path) else [os.path.join(path, file) for file in os.listdir(path)]
    return sum(text_of(file).count("\n") for file in files if file.endswith(".antt"))


def counted(page):
    """The page with its counts as they are."""
    page = ROW.sub(lambda row: f"{row[1]}{lines_in(row[2])}", page)
    return TOTAL.sub(f"{sum(lines_in(row[2]) for row in ROW.finditer(page)):,}", page)


def counts():
    page = counted(text_of("docs/AUDIT.md"))
    with open(os.path.join(TOP, "docs", "AUDIT.md"), "w", encoding="utf-8") as file:
        file.write(page)
    return True


def audit():
    page = text_of("docs/AUDIT.md")
    wrong = ["docs/AUDIT.md counts lines otherwise than they are: .ci/release.py counts"] * (counted(page) != page)
    for edit in re.findall(r"^\|[^|]*\|[^|]*\| `(\w+)` \|$", text_of("docs/AUDIT.md"), re.M):
        if not glob.glob(os.path.join(TOP, "crates", "*", "*", edit + ".edit")):
            wrong.append(f"docs/AUDIT.md names the edit {edit}, which isn't there")
    rows_there = len(ROW.findall(page))
    return told(f"{rows_there} rows of definitions", wrong + ["no row"] * (not rows_there))


# ---- links

def links():
    wrong, count = [], 0
    for name in glob.glob("*.md", root_dir=TOP) + glob.glob("*/**/*.md", root_dir=TOP, recursive=True):
        # what stands in a block or in a word of code is no link
        text = re.sub(r"^```.*?^```$|`[^`\n]*`", "", text_of(name), flags=re.M | re.S)
        for link in re.findall(r"\]\(([^)#\s]+)[^)]*\)", text):
            count += 1
            if ":" not in link and not os.path.exists(os.path.join(TOP, os.path.dirname(name), link)):
                wrong.append(f"{name} links to {link}, which isn't there")
    return told(f"{count} links", wrong)


# ---- what a host runs

def workflows():
    folder, wrong, count = os.path.join(TOP, ".github", "workflows"), [], 0
    for name in sorted(os.listdir(folder)):
        for step in re.findall(r"^ +(?:- )?run: (.*)$", text_of(os.path.join(".github", "workflows", name)), re.M):
            count += 1
            for word in step.split():
                if "/" in word and word[0] not in "/\"$" and not os.path.exists(os.path.join(TOP, word)):
                    wrong.append(f"{name}: {step}: there is no {word}")
    return told(f"{count} steps of a host", wrong + ["no step"] * (not count))


def main(words):
    parts = {"version": version, "systems": systems, "audit": audit, "counts": counts, "links": links, "workflows": workflows}
    if not words or any(word not in parts for word in words):
        print(__doc__, file=sys.stderr)
        return 2
    return 0 if all([parts[word]() for word in words]) else 1


if __name__ == "__main__":
    sys.exit(main(sys.argv[1:]))
