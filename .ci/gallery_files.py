"""The grammars of formats/ on files that nobody here wrote: up to twenty of each kind that this machine has, and such that other
programs make here. A file that a grammar refuses must be refused by another program too.

  gallery_files.py COMMAND [NAME..]     COMMAND parse GRAMMAR FILE is run; of the named grammars alone where there are names
  gallery_files.py --table COMMAND      the same, and the rows of the table in formats/README.md
  gallery_files.py --root=FOLDER ..     with the files of this folder too

Ends with status 1 where a file is refused wrongly.
"""

import collections
import concurrent.futures
import hashlib
import os
import re
import shlex
import shutil
import subprocess
import sys
import tempfile

FOLDER = os.path.join(os.path.dirname(os.path.dirname(os.path.abspath(__file__))), "formats")
MADE = os.path.join(os.path.dirname(os.path.abspath(__file__)), "gallery_made.sh")
ROOTS = ("/usr", "/etc", "/lib/terminfo", "/var/log", "/var/lib", "/var/cache/apt/archives")
MOST, LARGEST = 20, 1_000_000

# Where files of a kind stand: their paths, and the bytes at a place that tell them from others of such a name.
FILES = {
    "bzip2": (r"\.bz2$", 0, b"BZh"), "hdf5": (r"\.(h5|hdf5|nc)$", 0, b"\x89HDF"), "pdb": (r"\.pdb$", 0, b"Microsoft C/C++ MSF 7"), "rdb": (r"\.rdb$", 0,
    b"REDIS"),
    "evtx": (r"\.evtx$", 0, b"ElfFile\0"), "regf": (r"/(SAM|SYSTEM|SOFTWARE|NTUSER\.DAT|.*\.hiv)$", 0, b"regf"), "minidump": (r"\.dmp$", 0, b"MDMP"),
    "parquet": (r"\.parquet$", 0, b"PAR1"), "lnk": (r"\.lnk$", 0, b"\x4c\0\0\0"), "dex": (r"\.dex$", 0, b"dex\n"), "glb": (r"\.glb$", 0, b"glTF"),
    "torrent": (r"\.torrent$", 0, b"d"), "arrow": (r"\.(arrow|feather)$", 0, b"ARROW1\0\0"), "git-pack": (r"\.pack$", 0, b"PACK"),
    "ar": (r"\.(a|deb)$", 0, b"!<arch>\n"), "bmp": (r"\.bmp$", 0, b"BM"), "elf-notes": (r"/s?bin/\w+$|\.so[.\d]*$", 0, b"\x7fELF\2\1"),
    "elf-dynamic": (r"/s?bin/\w+$|\.so[.\d]*$", 0, b"\x7fELF\2\1"), "pe-imports": (r"\.(exe|dll)$", 0, b"MZ"),
    "gzip": (r"\.gz$", 0, b"\x1f\x8b"), "icc": (r"\.ic[cm]$", 36, b"acsp"), "ico": (r"\.(ico|cur)$", 0, b"\0\0"),
    "jpeg": (r"\.jpe?g$", 0, b"\xff\xd8"), "lz4": (r"\.lz4$", 0, b"\4\x22\x4d\x18"), "macho": (r"\.(dylib|macho)$", 0, b"\xcf\xfa\xed\xfe"),
    "matroska": (r"\.(mkv|webm|mka)$", 0, b"\x1a\x45\xdf\xa3"), "midi": (r"\.midi?$", 0, b"MThd"), "mo": (r"\.mo$", 0, b""),
    "mp4": (r"\.(mp4|m4a|mov|heic|avif)$", 4, b"ftyp"), "npy": (r"\.npy$", 0, b"\x93NUMPY"), "ogg": (r"\.(ogg|oga|opus)$", 0, b"OggS"),
    "openpgp": (r"\.(gpg|pgp|sig)$", 0, b""), "pcapng": (r"\.pcapng$", 0, b"\x0a\x0d\x0d\x0a"), "png": (r"\.png$", 0, b"\x89PNG"),
    "psd": (r"\.psd$", 0, b"8BPS"), "pyc": (r"\.pyc$", 2, b"\r\n"), "riff": (r"\.(wav|webp|ani|avi)$", 0, b"RIF"),
    "sfnt": (r"\.[to]tf$", 0, b""), "sqlite": (r"\.(sqlite3?|db)$", 0, b"SQLite format 3\0"), "stl": (r"\.stl$", 0, b""),
    "tar": (r"\.tar$", 257, b""), "terminfo": (r"/terminfo/./", 0, b""), "tiff": (r"\.tiff?$", 0, b""), "tzif": (r"/zoneinfo/", 0, b"TZif"),
    "utf8": (r"\.(txt|py|md|po)$", 0, b""), "utmp": (r"^/var/log/[bw]tmp", 0, b""), "wasm": (r"\.wasm$", 0, b"\0asm"),
    "wav": (r"\.wav$", 8, b"WAVE"), "webp": (r"\.webp$", 8, b"WEBP"), "woff": (r"\.woff$", 0, b"wOFF"), "xz": (r"\.xz$", 0, b"\xfd7zXZ\0"),
    "packets": (r"\.pcap$", 0, b""), "zip": (r"\.(zip|jar|jmod|whl)$", 0, b""), "zstd": (r"\.zst$", 0, b"\x28\xb5\x2f\xfd"), "java-class": (r"\.class$", 0,
    b"\xca\xfe\xba\xbe"),
}

# What another program says of a file that was refused: it ends with another status than 0, or says one of these words.
JUDGES = {
    "ar": "ar t {}", "bmp": "identify {}", "elf-notes": "readelf -n {}", "gzip": "gzip -t {}", "jpeg": "identify -regard-warnings {}", "lz4": "lz4 -t {}",
    "mo": "msgunfmt {}",
    "openpgp": "gpg --list-packets {}", "pcapng": "capinfos {}", "png": "pngcheck {}",
    "pyc": "python3 -c 'import marshal,sys; marshal.loads(open(sys.argv[1],\"rb\").read()[16:])' {}",
    "riff": "sox {} -n stat", "sfnt": "ttx -l {}", "sqlite": "sqlite3 {} 'pragma integrity_check'", "stl": "file -b {}",
    "tar": "tar -tf {}", "terminfo": "file -b {}",
    "tiff": "tiffinfo -D {}", "utf8": "iconv -f utf-8 -t utf-8 {}", "wasm": "wasm-objdump -h {}", "wav": "sox {} -n stat", "webp": "webpinfo {}",
    "xz": "xz -t {}",
    "zip": "unzip -tqq {}", "zstd": "zstd -tq {}",
}
WORDS = re.compile(r"premature|unexpected|truncated|ASCII text|no entries|not a |cannot|error", re.I)
NUMBERS = ("U8", "U16LE", "U16BE", "U32LE", "U32BE", "U64LE", "U64BE")
SMALLER = {"elf-dynamic": 100_000, "utf8": 20_000, "jpeg": 200_000, "pyc": 60_000}
Count = collections.namedtuple("Count", "name files parsed refused wrong bytes numbers raw")


def run(words, seconds=30, **more):
    try:
        return subprocess.run(words, capture_output=True, timeout=seconds, stdin=subprocess.DEVNULL, **more)
    except subprocess.TimeoutExpired:
        return subprocess.CompletedProcess(words, 124, b"", b"timeout")


def paths(more):
    """All files below the roots, and below further ones."""
    return [os.path.join(folder, name) for root in (*ROOTS, *more) for folder, _, names in os.walk(root) for name in names]


def is_kind(path, name):
    _, at, magic = FILES[name]
    try:
        if os.path.islink(path) or not 0 < os.path.getsize(path) <= SMALLER.get(name, LARGEST):
            return False
        with open(path, "rb") as file:
            return file.read(at + len(magic))[at:] == magic
    except OSError:
        return False


def found(name, everything):
    """Twenty files of the kind, spread over all that there are."""
    if name not in FILES:
        return []
    form = re.compile(FILES[name][0])
    named = sorted(path for path in everything if form.search(path))
    few = named[::max(1, len(named) // (4 * MOST))]
    kind = [path for path in few if is_kind(path, name)]
    return kind[::max(1, len(kind) // MOST)][:MOST]


def seeds(folder):
    """A text, zeros, and bytes that no program packs."""
    os.mkdir(folder)
    noise = b"".join(hashlib.sha256(bytes([i])).digest() for i in range(150))
    with open(__file__, "rb") as file:
        for name, data in (("text", file.read()), ("zeros", bytes(3000)), ("noise", noise)):
            with open(os.path.join(folder, name), "wb") as out:
                out.write(data)
    return folder


def made(name, folder):
    """Files that other programs make."""
    own = os.path.join(folder, name)
    os.mkdir(own)
    run(["bash", MADE, name, os.path.join(folder, "seeds")], 60, cwd=own)
    return sorted(os.path.join(where, one) for where, _, names in os.walk(own) for one in names)[:MOST]


def refused_rightly(name, path):
    """Whether another program refuses the file too; None where that program is not there."""
    judge = JUDGES.get(name)
    if not judge:
        return False
    words = [word.replace("{}", path) for word in shlex.split(judge)]
    if not shutil.which(words[0]):
        return None
    said = run(words)
    return said.returncode != 0 or bool(WORDS.search((said.stdout[:4000] + said.stderr[:4000]).decode("latin-1")))


def shares(text, size):
    """How many bytes of a file lie in numbers and fixed bytes of its tree, and how many in raw bytes alone."""
    marks = bytearray(size)
    leaves = [line.split()[1:4] for line in text.splitlines()]
    for raw in (True, False):
        for what, first, behind in leaves:
            if first.isdigit() and (what == "Bytes" if raw else what == "tok" or what in NUMBERS) and int(first) < int(behind):
                marks[int(first):int(behind)] = bytes([1 if raw else 2]) * (int(behind) - int(first))
    return marks.count(2), marks.count(1)


def tried(command, name, files):
    grammar = os.path.join(FOLDER, name + ".ipg")
    parsed, refused, wrong, total, numbers, raw = 0, 0, [], 0, 0, 0
    for path in files:
        answer = run([command, "parse", grammar, path])
        if answer.returncode == 0:
            size = os.path.getsize(path)
            told = shares(answer.stdout.decode("ascii"), size)
            parsed, total, numbers, raw = parsed + 1, total + size, numbers + told[0], raw + told[1]
            continue
        rightly = refused_rightly(name, path)
        refused += bool(rightly)
        if rightly is False:
            wrong.append(f"{answer.stdout[:60].decode()!r} {path}")
    return Count(name, len(files), parsed, refused, wrong, total, numbers, raw)


def row(one):
    """A row of the table in formats/README.md."""
    rest = one.bytes - one.numbers - one.raw
    parts = " | ".join(f"{100 * part / one.bytes:.0f} %" if one.bytes else "" for part in (one.numbers, one.raw, rest))
    return f"| {one.name} | {one.files} | {one.parsed} | {one.refused} | {parts} |"


def main():
    words = [word for word in sys.argv[1:] if not word.startswith("--")]
    names = words[1:] or sorted(name[:-4] for name in os.listdir(FOLDER) if name.endswith(".ipg"))
    everything = paths([word[7:] for word in sys.argv if word.startswith("--root=")])
    with tempfile.TemporaryDirectory() as folder, concurrent.futures.ThreadPoolExecutor(4) as pool:
        seeds(os.path.join(folder, "seeds"))
        ours = list(pool.map(lambda name: made(name, folder), names))
        files = {name: (found(name, everything) + own)[:2 * MOST] for name, own in zip(names, ours)}
        counts = list(pool.map(lambda name: tried(words[0], name, files[name]), names))
    for one in counts:
        if "--table" in sys.argv:
            print(row(one))
        for what in one.wrong:
            print(f"gallery: {one.name} refuses {what}", file=sys.stderr)
    some = [one for one in counts if one.files]
    print(f"gallery: {sum(one.files for one in some)} files of {len(some)} kinds that other programs made: {sum(one.parsed for one in some)} read,"
          f" {sum(one.refused for one in some)} refused as another program refuses them, {sum(len(one.wrong) for one in some)} refused wrongly")
    return 1 if any(one.wrong for one in counts) else 0


if __name__ == "__main__":
    sys.exit(main())
