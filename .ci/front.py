"""The front door: README's commands on a machine where nothing of ours is installed, and what `ipg-open` guesses.

  front.py readme                 installs and runs what stands in README's blocks, in their order, in a shell with PATH=/usr/bin:/bin
  front.py formats IPG            `@NAME`, `-` and the list of formats, by an installed program
  front.py samples IPG-OPEN       the first answer for each sample of formats/, and for a picture
  front.py words IPG-OPEN         options, statuses, several files, names that are hard to pass, a pager
  front.py files IPG-OPEN MOST    the first answer for files of this machine, of kinds that `file` tells; by kind at -v

Ends with status 1 where something differs; of the files up to 5 in 100 may.
"""

import collections
import concurrent.futures
import itertools
import os
import pty
import re
import subprocess
import sys
import tempfile
import zlib

TOP = os.path.dirname(os.path.dirname(os.path.abspath(__file__)))
sys.dont_write_bytecode = True
sys.path.insert(0, os.path.join(TOP, "formats"))
import pages  # noqa: E402
import samples  # noqa: E402

# A sample of these kinds is first of all one of another: a program, a capture, a sound.
FIRST = {"elf-notes": "@elf", "elf-dynamic": "@elf", "pe-imports": "@pe", "riff": "wav"}
# Only with -a, since they take nearly anything.
ASKED = ("protobuf", "utf8")
PICTURE = bytes.fromhex("474946383961010001000000002c00000000030004000002024c01003b")

# What `file` says of a kind, and the format that is due. The first that fits counts.
KINDS = [(re.compile(said), name) for said, name in (
    (r"ELF ", "@elf"), (r"PE32", "@pe"), (r"GIF image", "@gif"), (r"pcap capture", "packets"), (r"pcapng capture", "pcapng"),
    (r"PNG image", "png"), (r"gzip compressed", "gzip"), (r"bzip2 compressed", "bzip2"), (r"XZ compressed", "xz"),
    (r"Zstandard compressed", "zstd"), (r"LZ4 compressed", "lz4"), (r"JPEG image", "jpeg"), (r"TIFF image", "tiff"),
    (r"(Zip|Java) archive|OpenDocument|Microsoft (Word|Excel|PowerPoint) 2007|EPUB", "zip"), (r"7-zip archive", "sevenzip"),
    (r"POSIX tar|tar archive", "tar"), (r"current ar archive|thin archive|Debian binary package", "ar"), (r"(ASCII )?cpio archive", "cpio"),
    (r"SQLite 3.x database", "sqlite"), (r"SQLite Write-Ahead", "sqlite-wal"), (r"Byte-compiled Python|python .*byte-compiled", "pyc"),
    (r"Compiled terminfo|Compiled 32-bit terminfo", "terminfo"), (r"GNU message catalog", "mo"), (r"timezone data", "tzif"),
    (r"compiled Java class", "java-class"), (r"Mach-O", "macho"), (r"WebAssembly", "wasm"), (r"RIFF.*WAVE", "wav"),
    (r"RIFF.*Web/P", "webp"), (r"RIFF", "riff"), (r"MS Windows (icon|cursor)", "ico"), (r"PC bitmap", "bmp"), (r"FLAC audio", "flac"),
    (r"Ogg data", "ogg"), (r"Standard MIDI", "midi"), (r"ISO Media", "mp4"), (r"Matroska|WebM", "matroska"),
    (r"TrueType Font|OpenType font", "sfnt"), (r"Web Open Font Format,", "woff"), (r"Adobe Photoshop Image", "psd"),
    (r"DirectDraw Surface|Microsoft DirectDraw", "dds"), (r"NumPy data", "npy"), (r"Git index", "git-index"), (r"Git pack index", "git-idx"),
    (r"Git pack,", "git-pack"),
    (r"Certificate, Version=3", "x509"), (r"Device Tree Blob", "dtb"), (r"Squashfs filesystem", "squashfs"), (r"ISO 9660", "iso9660"),
    (r"QEMU QCOW", "qcow2"), (r"(ColorSync )?color profile|ICC Profile", "icc"), (r"OpenPGP (Public|Secret)|PGP.*key public ring", "openpgp"),
    (r"MSVC program database", "pdb"), (r"Hierarchical Data Format \(version 5\)", "hdf5"), (r"Apache Parquet", "parquet"),
    (r"Redis RDB", "rdb"), (r"MS Windows shortcut", "lnk"), (r"MS Windows registry file, NT", "regf"), (r"MS Windows.* Event Log", "evtx"),
    (r"Mini DuMP", "minidump"), (r"Dalvik dex", "dex"), (r"BitTorrent file", "torrent"), (r"glTF binary", "glb"), (r"LUKS encrypted", "luks"))]


def first(opener, path, *options):
    """The first format that reads a file."""
    said = subprocess.run([opener, "-l", *options, path], stdout=subprocess.PIPE, stderr=subprocess.DEVNULL, timeout=60)
    return (said.stdout.decode().split() or ["none"])[0]


# ---- README

def script(text):
    """README's commands as one run of a shell: each writes to a file of its own. With them, what each is due to print."""
    lines, dues = ["cd work || exit 1"], []
    for kind, block, place in pages.blocks(text):
        name = re.fullmatch(r"# (\S+\.ipg)", block[0]) if kind == "ipg" else None
        if name:
            lines.append(f"cat >{name[1]} <<'TEXT'\n" + "\n".join(block) + "\nTEXT")
        asked = [(line, None) for line in block] if kind == "sh" else pages.commands(block) if kind in ("console", "shell") else []
        for command, due in asked:
            lines.append(f"{{ {command}\n}} >../said.{len(dues)} 2>&1 </dev/null || echo $? >../status.{len(dues)}")
            dues.append((place, command, due))
    return "\n".join(lines) + "\n", dues


def readme():
    with open(os.path.join(TOP, "README.md"), encoding="utf-8") as file:
        text, dues = script(file.read())
    with tempfile.TemporaryDirectory() as folder:
        for name in ("home", "work"):
            os.mkdir(os.path.join(folder, name))
        for name in os.listdir(TOP):
            os.symlink(os.path.join(TOP, name), os.path.join(folder, "work", name))
        subprocess.run(["env", "-i", "PATH=/usr/bin:/bin", "LC_ALL=C", "HOME=" + os.path.join(folder, "home"), "bash", "-c", text],
                       cwd=folder, timeout=120)
        wrong = sum(not is_due(folder, number, row) for number, row in enumerate(dues))
    print(f"front: {len(dues)} commands of README in their order, {wrong} of them wrong")
    return wrong == 0 and len(dues) >= 8


def is_due(folder, number, row):
    """Whether a command printed what README says; where README says nothing, whether it ended with 0."""
    place, command, due = row
    with open(os.path.join(folder, f"said.{number}"), encoding="utf-8", errors="replace") as file:
        said = file.read().splitlines()
    failed = due is None and os.path.exists(os.path.join(folder, f"status.{number}"))
    if not failed and due in (None, said):
        return True
    print(f"front: README.md:{place}: {command}\n  printed {said}\n  due {due}", file=sys.stderr)
    return False


# ---- formats by name, and the standard input

BUILT_IN = ["@elf", "@pe", "@gif", "@pcap"]
MINE = b"# All \x1b[31mthat is there\r\nFile -> Bytes ;\n"
READ_FAULT = (5, b"read fault\n")
ACCEPTED = (0, b"accepted\n")


def run(command, folder, data=b"", **variables):
    """A run's status and text, with these variables of its environment; None takes one away."""
    environment = {name: text for name, text in dict(os.environ, **variables).items() if text is not None}
    done = subprocess.run(command, cwd=folder, env=environment, input=data, capture_output=True, timeout=60)
    return (done.returncode, done.stdout) if not done.stderr else (done.returncode, done.stderr)


def listed(formats):
    """The lines that are due of a folder of grammars."""
    lines = []
    for name in sorted(name[:-4] for name in os.listdir(formats) if name.endswith(".ipg")):
        with open(os.path.join(formats, name + ".ipg"), "rb") as file:
            lines.append(f"@{name:<15}" + file.readline().decode().removeprefix("#").strip() + "\n")
    return "".join(lines).encode()


def folder_of_own(top):
    """A folder of grammars: good ones, and what no name may lead to."""
    formats = os.path.join(top, "own")
    os.makedirs(os.path.join(formats, "folder.ipg"))
    for name, text in {"own/mine.ipg": MINE, "own/no comment.ipg": b'A -> "" ;', "own/plain.ipg": b'A -> "" ;', "outside.ipg": MINE, "own/closed.ipg": MINE,
                       "own/not a grammar": b"", "here.ipg": MINE}.items():
        with open(os.path.join(top, name), "wb") as file:
            file.write(text)
    os.chmod(os.path.join(formats, "closed.ipg"), 0)
    return formats


def by_name(ipg, top, formats, shared):
    """Each command with its variables, and what is due."""
    own = {"IPG_FORMATS": formats}
    installed = {"IPG_FORMATS": None}
    due = [(["check", "@" + name[:-4]], installed, ACCEPTED) for name in sorted(os.listdir(shared)) if name.endswith(".ipg")]
    due += [(["check", "@mine"], own, ACCEPTED), (["check", "@mine"], installed, READ_FAULT), (["check", "@png"], own, READ_FAULT),
            (["check", "@gif"], own, ACCEPTED), (["check", "@png"], {"IPG_FORMATS": ""}, ACCEPTED), (["check", "@folder"], own, READ_FAULT),
            (["check", "@png"], {"IPG_FORMATS": os.path.join(top, "none")}, READ_FAULT), (["check", "@here"], own, (2, b"refused G6 DuplicateRule 10\n")),
            (["check", "./@here"], own, (2, b"refused G6 DuplicateRule 10\n"))]
    due += [(["check", name], own, READ_FAULT) for name in ("@../outside", "@../own/mine", "@mine.ipg", "@no comment", "@./mine", "mine", "@nothing")]
    if os.geteuid() != 0:
        due.append((["check", "@closed"], own, READ_FAULT))
    return due


def list_due(ipg, top, formats, shared):
    front = run([ipg, "formats"], top, IPG_FORMATS=os.path.join(top, "none"))[1]
    there = b"         All ?[31mthat is there\n"
    closed = there if os.geteuid() == 0 else b"\n"
    return front, [
        (["formats"], {"IPG_FORMATS": None}, (0, front + listed(shared))),
        (["formats"], {"IPG_FORMATS": formats}, (0, front + b"@closed" + closed + b"@folder\n@mine  " + there + b"@plain\n"))]


def of_input(ipg, top):
    """The standard input is the file `-`, from a pipe and from a file, and a file so named is `./-`."""
    png = samples.SAMPLES["png"]()
    for name, data in {"png": png, "-": b"not this"}.items():
        with open(os.path.join(top, name), "wb") as file:
            file.write(data)
    with open(os.path.join(top, "png"), "rb") as file:
        from_file = subprocess.run([ipg, "parse", "@png", "-"], cwd=top, stdin=file, capture_output=True)
    tree = run([ipg, "parse", "@png", "png"], top)
    return [("a pipe", run([ipg, "parse", "@png", "-"], top, png), tree), ("a file", (from_file.returncode, from_file.stdout), tree),
            ("a grammar", run([ipg, "check", "-"], top, b'A -> "" ;'), ACCEPTED), ("./-", run([ipg, "parse", "@png", "./-"], top, png), (1, b"no parse\n")),
            ("nothing", run([ipg, "parse", "@png", "-"], top), (1, b"no parse\n"))]


def of_formats(ipg):
    shared = os.path.join(os.path.dirname(os.path.dirname(ipg)), "share", "ipg", "formats")
    with tempfile.TemporaryDirectory() as top:
        formats = folder_of_own(top)
        with open(os.path.join(top, "@here"), "wb") as file:
            file.write(b'A -> "" ; A -> "" ;')
        front, lists = list_due(ipg, top, formats, shared)
        rows = [(words, run([ipg, *words], top, **variables), due) for words, variables, due in by_name(ipg, top, formats, shared) + lists]
        rows += of_input(ipg, top)
        rows.append(("the built-in ones", [line.split()[0].decode() for line in front.splitlines()], BUILT_IN))
        os.chmod(os.path.join(formats, "closed.ipg"), 0o600)
    wrong = [row for row in rows if row[1] != row[2]]
    for row in wrong:
        print("front: {}: {}, due {}".format(*row), file=sys.stderr)
    print(f"front: {len(rows)} runs by names of formats and over the standard input, {len(wrong)} of them wrong")
    return not wrong


# ---- ipg-open

def of_samples(opener):
    made = dict({name: make() for name, make in samples.SAMPLES.items()}, **{"@gif": PICTURE})
    with tempfile.TemporaryDirectory() as folder, concurrent.futures.ThreadPoolExecutor(4) as pool:
        for name, data in made.items():
            with open(os.path.join(folder, name), "wb") as file:
                file.write(data)
        told = list(pool.map(lambda name: first(opener, os.path.join(folder, name), *(["-a"] if name in ASKED else [])), made))
    wrong = [(name, got) for name, got in zip(made, told) if got != FIRST.get(name, name)]
    for name, got in wrong:
        print(f"front: of the sample {name} ipg-open says {got}", file=sys.stderr)
    print(f"front: {len(made)} samples, {len(wrong)} of them opened as another format")
    return not wrong


def on_terminal(command, folder, **variables):
    """What a command says where its output is a terminal."""
    environment = dict(os.environ, PAGER="sed s/^/paged:/", **variables)
    main_end, end = pty.openpty()
    run = subprocess.Popen(command, cwd=folder, stdin=subprocess.DEVNULL, stdout=end, stderr=end, env=environment)
    os.close(end)
    said = b""
    while True:
        try:
            part = os.read(main_end, 65536)
        except OSError:
            part = b""
        if not part:
            break
        said += part
    run.wait()
    os.close(main_end)
    return said.decode().replace("\r", "").splitlines()


# The words, the status that is due, what the output's lines begin with, and a word of the error stream.
WORDS = [
    ([], 4, [], "usage"), (["-x"], 4, [], "usage"), (["none"], 5, [], "none: no file that can be read"), (["."], 5, [], "no file that can be read"),
    (["-l", "png", "a b"], 0, ["png: png", "a b: wav", "a b: riff"], ""), (["-l", "--", "-l"], 0, ["png"], ""),
    (["-l", "text", "png"], 1, ["png: png"], "text: no format reads it; -a"), (["-la", "text"], 0, ["utf8"], ""),
    (["-l", "empty"], 1, [], "empty: empty"), (["cut"], 1, [], "cut: it begins as png does, and isn't read (no parse)"),
    (["--colour", "png"], 4, [], "usage"), (["--color=red", "png"], 4, [], "usage"), (["--color", "png"], 4, [], "usage")]
COLOR = re.compile(r"\x1b\[[0-9;]*m")


def of_words(opener):
    with tempfile.TemporaryDirectory() as folder:
        png = samples.SAMPLES["png"]()
        for name, data in {"png": png, "-l": png, "cut": png[:99], "a b": samples.SAMPLES["wav"](), "text": b"a text\n", "empty": b""}.items():
            with open(os.path.join(folder, name), "wb") as file:
                file.write(data)
        os.symlink(opener, os.path.join(folder, "link"))
        wrong = [words for words, *due in WORDS if not says(["./link", *words], folder, due)]
        view = subprocess.run([os.path.join(os.path.dirname(opener), "ipg"), "view", os.path.join(TOP, "formats", "png.ipg"), "png"],
                              cwd=folder, stdout=subprocess.PIPE).stdout.decode().splitlines()
        grammar = os.path.join(os.path.dirname(os.path.dirname(opener)), "share", "ipg", "formats", "png.ipg")
        explained = subprocess.run([os.path.join(os.path.dirname(opener), "ipg"), "explain", grammar, "cut"],
                                   cwd=folder, stdout=subprocess.PIPE).stdout.decode().splitlines()
        looks = shown_in(opener, folder, png, view, explained)
    for what, got, due in looks:
        if not view or got != due:
            wrong.append(what)
            print(f"front: {what}: {got[:3]}, due {due[:3]}", file=sys.stderr)
    print(f"front: {len(WORDS) + len(looks)} runs of ipg-open, {len(wrong)} of them wrong")
    return not wrong


def shown_in(opener, folder, png, view, explained):
    """What is shown in a pipe and on a terminal, with colors and without, and what is due."""
    def shown(*words):
        return subprocess.run([opener, *words], cwd=folder, input=png, stdout=subprocess.PIPE, stderr=subprocess.DEVNULL).stdout.decode().splitlines()

    paged = ["paged:" + line for line in view]
    colored = shown("--color=always", "png")
    on_screen = on_terminal([opener, "png"], folder, TERM="xterm", NO_COLOR="")
    return [
        ("shown", shown("png"), view), ("the standard input", shown("-"), view), ("listed", shown("-l", "-"), ["png"]),
        ("partial", shown("--partial", "cut"), explained), ("colored", [COLOR.sub("", line) for line in colored], view),
        ("lines with colors", sum(bool(COLOR.search(line)) for line in colored), len(view)),
        ("on a terminal", [COLOR.sub("", line) for line in on_screen], paged),
        ("lines with colors there", sum(bool(COLOR.search(line)) for line in on_screen), len(view)),
        ("with NO_COLOR", on_terminal([opener, "png"], folder, TERM="xterm", NO_COLOR="1"), paged),
        ("never", on_terminal([opener, "--color=never", "png"], folder, TERM="xterm"), paged),
        ("on a dumb terminal", on_terminal([opener, "png"], folder, TERM="dumb"), paged),
        ("of two", on_terminal([opener, "png", "-l"], folder, NO_COLOR="1"),
         ["paged:" + line for line in ["==> png: png <==", *view, "==> ./-l: png <==", *view]])]


def says(command, folder, due):
    status, lines, error = due
    run = subprocess.run(command, cwd=folder, stdin=subprocess.DEVNULL, capture_output=True)
    if run.returncode == status and run.stdout.decode().splitlines() == lines and (error in run.stderr.decode() if error else not run.stderr):
        return True
    print(f"front: {command}: {run}", file=sys.stderr)
    return False


def is_binary(path):
    """Whether a file of some size begins as no text does."""
    try:
        if os.path.islink(path) or not 0 < os.path.getsize(path) < 1 << 25:
            return False
        with open(path, "rb") as file:
            return bool(re.search(rb"[^\t-\r -~]", file.read(256)))
    except OSError:
        return False


def everything():
    """Files of this machine, in an order that has nothing to do with their names."""
    found = [os.path.join(where, name) for top in ("/usr", "/etc", "/var", "/boot") for where, _, names in os.walk(top) for name in names if "\n" not in name]
    return sorted(found, key=lambda path: (zlib.crc32(path.encode("utf-8", "replace")), path))


def kinds(paths):
    """The format that is due for each path, where `file` tells it."""
    said = subprocess.run(["file", "-b", "-f", "-"], input="\n".join(paths).encode("utf-8", "surrogateescape"), stdout=subprocess.PIPE).stdout
    told = said.decode("utf-8", "replace").splitlines()
    return [next((name for form, name in KINDS if form.match(line)), None) for line in told] if len(told) == len(paths) else [None] * len(paths)


def chosen(most):
    """Up to so many files, no more than a twelfth of them of one kind."""
    files, counts = [], collections.Counter()
    binary = list(itertools.islice(filter(is_binary, everything()), 12 * most))
    for path, name in zip(binary, kinds(binary)):
        if name and counts[name] < most // 12:
            counts[name] += 1
            files.append((path, name))
    return files[:most]


def of_files(opener, most):
    files = chosen(most)
    with concurrent.futures.ThreadPoolExecutor(4) as pool:
        told = list(pool.map(lambda row: first(opener, row[0]), files))
    wrong = [(path, due, got) for (path, due), got in zip(files, told) if got != due]
    if "-v" in sys.argv:
        counts, bad = collections.Counter(due for _, due in files), collections.Counter(due for _, due, _ in wrong)
        print("\n".join(f"{name} {count} {bad[name]}" for name, count in sorted(counts.items())))
        print("\n".join(f"{path}: {got}, due {due}" for path, due, got in wrong))
    print(f"front: {len(files)} files of {len({due for _, due in files})} kinds, {len(files) - len(wrong)} opened first as what `file` says they are")
    return 20 * len(wrong) <= len(files)


def main():
    words = [word for word in sys.argv[1:] if word != "-v"]
    if words == ["readme"]:
        return not readme()
    if len(words) == 2 and words[0] == "formats":
        return not of_formats(words[1])
    if len(words) == 2 and words[0] == "samples":
        return not of_samples(words[1])
    if len(words) == 2 and words[0] == "words":
        return not of_words(words[1])
    return not of_files(words[1], int(words[2]))


if __name__ == "__main__":
    sys.exit(main())
