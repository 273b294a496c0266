#!/usr/bin/env python3
"""What is linked into the kept programs and libraries, and under which licence: parts.json, as NOTICE and as a list in SPDX's form.

  notice.py notice              prints NOTICE; it wants the toolchain, whose ports have the texts
  notice.py check               NOTICE has each part and what the text above gives; parts.json has each port that crates.txt names, and where the
                                toolchain is, each crate that the kept modules have functions of, and no other
  notice.py spdx DATE FILE..    prints the list for these files of dist/, with DATE as 2026-01-31T00:00:00Z
"""

import hashlib
import json
import lzma
import os
import re
import shutil
import subprocess
import sys
import tempfile
import textwrap

HERE = os.path.dirname(os.path.abspath(__file__))
TOP = os.path.dirname(HERE)
MODULES = {"ipg": "ipg", "ipg_c": "library"}
OWN = "MIT OR Apache-2.0"
ABOUT = """\
What is in ipg beside its own sources, and under which licence. ipg itself is under the terms of LICENSE-MIT or LICENSE-APACHE, at your choice;
so are the crates below that say `MIT OR Apache-2.0`, and LICENSE-APACHE lies beside this file. clang and lld of LLVM 22.1.8 compiled and linked
the program, and nothing of them is in it. A program that is linked dynamically brings no C library along: it takes the system's.
"""


def text_of(*names):
    with open(os.path.join(*names), encoding="utf-8") as file:
        return file.read()


PARTS = json.loads(text_of(HERE, "parts.json"))


def kit():
    """The toolchain's folder, or None."""
    rt = shutil.which("rt")
    return rt and os.path.dirname(subprocess.run([rt, "doc"], stdout=subprocess.PIPE, check=True, text=True).stdout.strip())


def is_in(part, file):
    return part["in"] == ["*"] or file in part["in"]


def rows():
    """NOTICE's table: a part, its licence, which files it is in, and what of it."""
    for part in PARTS:
        name = part["name"] + ("" if part["version"] == "NOASSERTION" else " " + part["version"])
        files = "all files" if part["in"] == ["*"] else ", ".join(part["in"])
        note = {"port": "a port of the Rust crate"}.get(part["of"], "") if "note" not in part else part["note"]
        licence = "no text is given" if part["licence"] == "NOASSERTION" else part["licence"]
        yield "\n".join([f"{name}: {licence}", *textwrap.wrap(f"{note}; in {files}" if note else f"in {files}", 130, initial_indent="  ",
                                                             subsequent_indent="  ")])


def notices(folder):
    """The notices that the ports ask for; of texts that are alike but for what the paragraphs hold, all stand."""
    said = {}
    for part in PARTS:
        if "notice" in part:
            said.setdefault(text_of(folder, "rattle", part["notice"]).strip(), []).append(part["name"])
    for text, names in said.items():
        yield f"{'-' * 78}\n{', '.join(names)}\n\n{text}"
    for name in sorted(os.listdir(os.path.join(HERE, "licences"))):
        if name != "LGPL-2.1":
            yield f"{'-' * 78}\n{name}\n\n{text_of(HERE, 'licences', name).strip()}"
    yield f"{'-' * 78}\nThe text of LGPL-2.1 lies beside the programs that glibc is linked into, and in release/licences."


def notice(folder):
    return "\n\n".join([ABOUT.strip(), *rows(), *notices(folder)]) + "\n"


# ---- what there is

def ports_of(program):
    """The crates that a program's own crates name and that aren't its own: the toolchain's."""
    lines = [line.partition("#")[0].split(":") for line in text_of(TOP, "crates.txt").splitlines()]
    stands = {line[0].split()[0]: line[1].split() for line in lines if len(line) == 2}
    seen, due = set(), [program]
    while due:
        name = due.pop()
        if name not in seen:
            seen.add(name)
            due += stands.get(name, [])
    return {name for name in seen if name not in stands}


def crates_in(module, folder):
    """The crates of which a kept module has functions, but for our own."""
    with tempfile.TemporaryDirectory() as room:
        code, text = os.path.join(room, "module.bc"), os.path.join(room, "module.ll")
        with open(code, "wb") as out:
            out.write(lzma.decompress(open(os.path.join(TOP, "dist", module + ".bc.xz"), "rb").read()))
        subprocess.run([os.path.join(folder, "toolchain", "bin", "clang"), "--target=x86_64-unknown-linux-gnu", "-S", "-emit-llvm", "-Xclang",
                        "-disable-llvm-passes", "-x", "ir", code, "-o", text], check=True)
        names = re.findall(r'^define .*?@"?(\w+)::', text_of(text), re.M)
    return {name for name in names if not name.startswith("ipg")}


def known():
    return {name for part in PARTS if part["of"] != "system" for name in part.get("crates", [part["name"]])}


def check():
    wrong = [f"parts.json lacks {name}, which crates.txt names" for name in sorted(set().union(*map(ports_of, MODULES)) - known())]
    said = text_of(TOP, "NOTICE")
    wrong += [f"NOTICE lacks: {row.splitlines()[0]}" for row in rows() if row not in said]
    folder = kit()
    if folder:
        there = set().union(*(crates_in(module, folder) for module in MODULES))
        # these two are macros, which leave no name of their own
        wrong += [f"parts.json and the modules differ in {name}" for name in sorted(there ^ known() - {"thiserror", "anyhow"})]
        if said != notice(folder):
            wrong.append("NOTICE isn't what release/notice.py makes of the toolchain's texts")
    for line in wrong:
        print("notice:", line, file=sys.stderr)
    print(f"notice: {len(PARTS)} parts, {'as the kept modules have them' if folder else 'and no toolchain to look at the modules by'}")
    return not wrong


# ---- SPDX

def package(number, part):
    found = {"SPDXID": f"SPDXRef-part-{number}", "name": part["name"], "versionInfo": part["version"], "downloadLocation": "NOASSERTION",
             "filesAnalyzed": False, "licenseConcluded": part["licence"], "licenseDeclared": part["licence"], "copyrightText": "NOASSERTION"}
    if part["version"] == "NOASSERTION":
        del found["versionInfo"]
    return dict(found, comment=part["note"]) if "note" in part else found


def file_entry(number, name):
    with open(os.path.join(TOP, "dist", name), "rb") as file:
        data = file.read()
    sums = [{"algorithm": kind.upper(), "checksumValue": hashlib.new(kind, data).hexdigest()} for kind in ("sha1", "sha256")]
    return {"SPDXID": f"SPDXRef-file-{number}", "fileName": "./dist/" + name, "checksums": sums, "licenseConcluded": "NOASSERTION",
            "licenseInfoInFiles": [OWN], "copyrightText": "NOASSERTION"}


def spdx(date, files):
    version = subprocess.run([os.path.join(TOP, "dist", "ipg"), "version"], stdout=subprocess.PIPE, check=True, text=True).stdout.split()[1]
    told = [file_entry(number, name) for number, name in enumerate(files)]
    sums = hashlib.sha256("".join(entry["checksums"][1]["checksumValue"] for entry in told).encode()).hexdigest()
    own = dict(package(0, {"name": "ipg", "version": version, "licence": OWN}), SPDXID="SPDXRef-ipg")
    parts = [package(number, part) for number, part in enumerate(PARTS)]
    links = [("SPDXRef-DOCUMENT", "DESCRIBES", "SPDXRef-ipg")]
    for number, name in enumerate(files):
        links.append(("SPDXRef-ipg", "CONTAINS", f"SPDXRef-file-{number}"))
        links += [(f"SPDXRef-file-{number}", "STATIC_LINK", f"SPDXRef-part-{at}") for at, part in enumerate(PARTS) if is_in(part, name)]
    return {"spdxVersion": "SPDX-2.3", "dataLicense": "CC0-1.0", "SPDXID": "SPDXRef-DOCUMENT", "name": f"ipg-{version}",
            "documentNamespace": f"https://spdx.org/spdxdocs/ipg-{version}-{sums[:32]}",
            "creationInfo": {"created": date, "creators": ["Tool: release/notice.py"]}, "packages": [own, *parts], "files": told,
            "relationships": [{"spdxElementId": one, "relationshipType": kind, "relatedSpdxElement": other} for one, kind, other in links]}


def main(words):
    if words == ["notice"]:
        print(notice(kit() or sys.exit("notice: there is no toolchain")), end="")
        return 0
    if words == ["check"]:
        return 0 if check() else 1
    if len(words) > 2 and words[0] == "spdx":
        print(json.dumps(spdx(words[1], words[2:]), indent=1))
        return 0
    print(__doc__, file=sys.stderr)
    return 2


if __name__ == "__main__":
    sys.exit(main(sys.argv[1:]))
