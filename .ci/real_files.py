"""Real files: what the program prints of them by a built-in grammar, against what another program says.

  real_files.py COMMAND gif|pe|elf|pcap [COUNT]

COMMAND parse @gif FILE (or @pe, @elf, @pcap) is run for each file of that kind that is found on this machine, for pcap for
files that tcpdump makes of a talk of this script with itself, and then for COUNT of them that were cut or changed (300 if it
isn't given). Ends with status 1 where something differs, and with 77 where the other program or enough files are missing.
"""

import hashlib
import os
import random
import re
import socket
import subprocess
import sys
import tempfile
import time
from collections import namedtuple

# A line of a printed tree: its depth, the rule, primitive, `tok`, `for` or `many`, and the words behind.
Line = namedtuple("Line", "depth what words attrs")

ROOTS = ["/usr", "/opt", "/root", "/home", "/var"]
MAX_SIZE = 5_000_000
MOST = 100
FEWEST = {"gif": 30, "pe": 3, "elf": 50, "pcap": 20}
OTHER = {"gif": "giftext", "pe": "objdump", "elf": "readelf", "pcap": "tcpdump"}
MAGIC = {"gif": b"GIF8", "pe": b"MZ", "elf": b"\x7fELF"}


# ---- files

def begins(path, magic):
    try:
        with open(path, "rb") as file:
            return file.read(len(magic)) == magic
    except OSError:
        return False


def candidates(kind):
    """Names that may be those of files of the kind; for ELF all of /usr/bin first."""
    endings = {"gif": (".gif",), "pe": (".exe", ".dll"), "elf": (".o", ".so")}[kind]
    if kind == "elf":
        yield from (os.path.join("/usr/bin", name) for name in sorted(os.listdir("/usr/bin")))
    for folder in ["/usr/lib"] if kind == "elf" else ROOTS:
        for at, _, names in os.walk(folder):
            yield from (os.path.join(at, name) for name in sorted(names) if name.lower().endswith(endings))


def found(kind):
    """Files of the kind, each content once; outside of /usr/bin no more than MOST."""
    seen, files, others = set(), [], 0
    for path in candidates(kind):
        if others >= MOST:
            break
        if os.path.islink(path) or not os.path.isfile(path) or os.path.getsize(path) > MAX_SIZE:
            continue
        if not begins(path, MAGIC[kind]):
            continue
        with open(path, "rb") as file:
            content = hashlib.sha256(file.read()).digest()
        if content not in seen:
            seen.add(content)
            files.append(path)
            others += not path.startswith("/usr/bin/")
    return files


def talk(rng):
    """Some datagrams, and a connection, within this machine; its two ports."""
    udp, tcp = socket.socket(socket.AF_INET, socket.SOCK_DGRAM), socket.socket()
    udp.bind(("127.0.0.1", 0))
    tcp.bind(("127.0.0.1", 0))
    tcp.listen()

    def say():
        for _ in range(rng.randrange(1, 8)):
            with socket.socket(socket.AF_INET, socket.SOCK_DGRAM) as other:
                other.sendto(rng.randbytes(rng.randrange(200)), udp.getsockname())
        with socket.create_connection(tcp.getsockname()) as other:
            other.sendall(rng.randbytes(rng.randrange(1, 5000)))
            tcp.accept()[0].close()

    return udp.getsockname()[1], tcp.getsockname()[1], say


def captures(folder, count):
    """Files that tcpdump makes; none where it may not."""
    rng, files = random.Random(2), []
    for number in range(count):
        path = os.path.join(folder, f"{number}.pcap")
        first, second, say = talk(rng)
        words = ["tcpdump", "-i", "lo", "--immediate-mode", "-U", "-Z", "root", "-w", path, f"port {first} or port {second}"]
        tool = subprocess.Popen(words, stderr=subprocess.PIPE, text=True)
        if "listening" not in tool.stderr.readline():
            tool.kill()
            return files
        say()
        time.sleep(0.2)
        tool.terminate()
        tool.communicate()
        files.append(path)
    return files


# ---- trees

def run(command, kind, path):
    done = subprocess.run([command, "parse", "@" + kind, path], capture_output=True, timeout=600)
    return done.returncode, done.stdout.decode()


def line_of(text):
    words = text.split(" ")
    attrs = {}
    for word in words[2:]:
        name, equals, value = word.partition("=")
        if equals:
            attrs[name] = int(value)
    return Line(int(words[0]), words[1], words[2:], attrs)


def lines_of(text):
    return [line_of(line) for line in text.splitlines()]


def below(lines, at):
    """The lines below the one at that place."""
    for line in lines[at + 1:]:
        if line.depth <= lines[at].depth:
            return
        yield line


def named(lines, rule):
    return [(at, line) for at, line in enumerate(lines) if line.what == rule]


# ---- what another program says, and the same of the tree

def said(words):
    return subprocess.run(words, capture_output=True, timeout=600).stdout.decode(errors="replace")


def gif_said(path):
    """The screen's size and each frame's place and size; None where giftext does not read the file to its end."""
    done = subprocess.run(["giftext", path], capture_output=True, timeout=600)
    if done.returncode:
        return None
    text = done.stdout.decode(errors="replace")
    screen = re.search(r"Screen Size - Width = (\d+), Height = (\d+)", text)
    frames = re.findall(r"Image Size - Left = (\d+), Top = (\d+), Width = (\d+), Height = (\d+)", text)
    return [tuple(map(int, screen.groups()))] + [tuple(map(int, frame)) for frame in frames]


def gif_read(lines):
    screen = named(lines, "Screen")[0][1].attrs
    frames = [line.attrs for _, line in named(lines, "Image")]
    return [(screen["width"], screen["height"])] + [(a["left"], a["top"], a["width"], a["height"]) for a in frames]


def pe_sections(path):
    """By objdump, which does not know every machine: each section's place in memory, and its place in the file where it
    has bytes there."""
    base = re.search(r"^ImageBase\s+([0-9a-f]+)", said(["objdump", "-p", path]), re.M)
    if base is None:
        return None
    base = int(base.group(1), 16)
    sections = []
    for line in said(["objdump", "-h", "-w", path]).splitlines():
        words = line.split()
        if len(words) > 6 and words[0].isdigit():
            offset = int(words[5], 16) if "CONTENTS," in words else None
            sections.append((int(words[3], 16) - base, offset))
    return sections


def pe_read(lines, sections):
    read = [line.attrs for _, line in named(lines, "Sect")]
    if sections is None or len(read) != len(sections):
        return [(a["vaddr"], a["rawptr"]) for a in read]
    return [(a["vaddr"], None if due[1] is None else a["rawptr"]) for a, due in zip(read, sections)]


def elf_said(path):
    header = said(["readelf", "-h", path])
    numbers = [int(re.search(key + r": +(\d+)", header).group(1)) for key in ("Number of program headers", "Number of section headers")]
    sections = []
    for line in said(["readelf", "-S", "-W", path]).splitlines():
        row = re.match(r" +\[ *\d+\] (.*)$", line)
        if row and not row.group(1).startswith("Nr"):
            words = re.search(r" ([0-9a-f]{8,16}) ([0-9a-f]{6,}) ([0-9a-f]{6,}) ", row.group(1))
            sections.append((int(words.group(2), 16), int(words.group(3), 16)))
    symbols = []
    text = said(["readelf", "-s", "-W", path])
    table = re.search(r"'\.symtab' contains (\d+) entr.*\n.*\n((?: +\d+: .*\n)*)", text)
    if table:
        for line in table.group(2).splitlines():
            words = line.split()
            name = "" if words[3] == "SECTION" else "".join(words[7:8])
            symbols.append((name, int(words[1], 16), int(words[2], 0)))
        symbols = [int(table.group(1))] + symbols[:100]
    return numbers, sections, symbols


def strings(path):
    """The file from the names of its symbols on."""
    place = re.search(r"\] \.strtab +STRTAB +[0-9a-f]+ ([0-9a-f]+) ", said(["readelf", "-S", "-W", path]))
    with open(path, "rb") as file:
        file.seek(int(place.group(1), 16) if place else 0)
        return file.read()


def symbol_read(lines, at, names):
    """A symbol's name, and its address and size, each of two halves."""
    name = names[lines[at].attrs["name"]:].split(b"\0", 1)[0].decode(errors="replace")
    halves = [line.attrs["hi"] * 2**32 + line.attrs["lo"] for line in below(lines, at) if line.what == "Addr"]
    return name, halves[0], halves[1]


def elf_read(lines, path):
    head = named(lines, "Head")[0][1].attrs
    numbers = [head["phnum"], head["shnum"]]
    sections = [(a["oh"] * 2**32 + a["off"], a["sh"] * 2**32 + a["size"]) for a in (line.attrs for _, line in named(lines, "Sh"))]
    places = [at for at, _ in named(lines, "Sym")]
    names = strings(path) if places else b""
    symbols = [len(places)] + [symbol_read(lines, at, names) for at in places[:100]] if places else []
    return numbers, sections, symbols


def pcap_said(path):
    """Each packet's time and ports."""
    text = said(["tcpdump", "-n", "-tt", "-Z", "root", "-r", path])
    return [tuple(map(int, row)) for row in re.findall(r"^(\d+)\.(\d+) IP [\d.]+\.(\d+) > [\d.]+\.(\d+):", text, re.M)]


def pcap_read(lines):
    packets = []
    for at, record in named(lines, "Rec"):
        ports = [line.attrs for line in below(lines, at) if line.what in ("Udp", "Tcp")]
        packets += [(record.attrs["sec"], record.attrs["frac"], a["src"], a["dst"]) for a in ports]
    return packets


def due_of(kind, path):
    return {"gif": gif_said, "pe": pe_sections, "elf": elf_said, "pcap": pcap_said}[kind](path)


def read_of(kind, path, text, due):
    lines = lines_of(text)
    if kind == "pe":
        return pe_read(lines, due)
    if kind == "elf":
        return elf_read(lines, path)
    return gif_read(lines) if kind == "gif" else pcap_read(lines)


def differs(kind, path, status, text):
    """What is wrong with the program's answer, if anything is."""
    due = due_of(kind, path)
    if status == 1 and kind == "gif" and due is None:
        return None
    if status:
        return f"status {status}"
    read = read_of(kind, path, text, due)
    return None if due in (None, read) else f"{OTHER[kind]} says {due}, the tree {read}"


# ---- cut or changed files

def spoilt(content, rng):
    content = bytearray(content)
    if rng.random() < 0.5 and content:
        del content[rng.randrange(len(content)):]
    for _ in range(rng.randrange(8)):
        if content:
            content[rng.randrange(min(len(content), 512) if rng.random() < 0.7 else len(content))] = rng.randrange(256)
    return bytes(content)


def spoils(command, kind, files, count):
    rng = random.Random(1)
    failed = False
    with tempfile.TemporaryDirectory() as folder:
        path = os.path.join(folder, "file")
        for _ in range(count):
            chosen = rng.choice(files)
            with open(chosen, "rb") as file:
                content = spoilt(file.read(), rng)
            with open(path, "wb") as file:
                file.write(content)
            status, _ = run(command, kind, path)
            if status not in (0, 1):
                print(f"{kind}: {chosen}, cut or changed: status {status}")
                failed = True
    return failed


def compared(command, kind, count, files):
    if len(files) < FEWEST[kind]:
        print(f"{kind}: skipped, for want of files: {len(files)} of {FEWEST[kind]}")
        return 77
    failed = False
    for path in files:
        wrong = differs(kind, path, *run(command, kind, path))
        if wrong:
            print(f"{kind}: {path}: {wrong}"[:600])
            failed = True
    if not failed:
        print(f"{kind}: {len(files)} files read as {OTHER[kind]} reads them")
    if spoils(command, kind, files, count):
        failed = True
    else:
        print(f"{kind}: {count} files cut or changed: no other status than 0 or 1")
    return 1 if failed else 0


def main():
    command, kind = sys.argv[1:3]
    count = int(sys.argv[3]) if len(sys.argv) > 3 else 300
    if subprocess.run(["which", OTHER[kind]], capture_output=True).returncode:
        print(f"{kind}: skipped, for want of {OTHER[kind]}")
        return 77
    with tempfile.TemporaryDirectory() as folder:
        return compared(command, kind, count, captures(folder, FEWEST[kind]) if kind == "pcap" else found(kind))


if __name__ == "__main__":
    sys.exit(main())
