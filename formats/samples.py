"""A small file of each format, the same bytes on each run: where python3 has a module for the format it is made by that.

  samples.py FOLDER

writes FOLDER/NAME for each grammar NAME.ipg of this folder. The values in them are what `.ci/gallery.py` expects.
"""

import bz2
import gzip
import hashlib
import io
import lzma
import marshal
import os
import sqlite3
import struct
import sys
import tarfile
import tempfile
import wave
import zipfile
import zlib


def be(form, *values):
    return struct.pack(">" + form, *values)


def le(form, *values):
    return struct.pack("<" + form, *values)


# ---- images

def png_chunk(kind, data):
    return be("I", len(data)) + kind + data + be("I", zlib.crc32(kind + data))


def png():
    """Three by two red pixels, stored without compression, with a text, a time and a resolution."""
    rows = (b"\0" + b"\xff\0\0" * 3) * 2
    stored = b"\x78\x01\x01" + le("HH", len(rows), 65535 - len(rows)) + rows + be("I", zlib.adler32(rows))
    chunks = [(b"IHDR", be("IIBBBBB", 3, 2, 8, 2, 0, 0, 0)), (b"gAMA", be("I", 45455)), (b"pHYs", be("IIB", 2835, 2835, 1)),
              (b"tEXt", b"Title\0red"), (b"tIME", be("HBBBBB", 2024, 2, 29, 12, 30, 59)),
              (b"IDAT", stored), (b"IEND", b"")]
    return b"\x89PNG\r\n\x1a\n" + b"".join(png_chunk(*chunk) for chunk in chunks)


def bmp():
    """Three by two pixels of 24 bits, the top row first."""
    row = b"\0\0\xff" * 3 + b"\0\0\0"
    info = le("IiiHHIIiiII", 40, 3, -2, 1, 24, 0, 24, 2835, 2835, 0, 0)
    return b"BM" + le("IHHI", 54 + 24, 0, 0, 54) + info + row * 2


def ico_bitmap(side):
    """An icon's image: its height counts the mask of one bit a pixel too."""
    mask = b"\0" * ((side + 31) // 32 * 4) * side
    return le("IiiHHIIiiII", 40, side, 2 * side, 1, 32, 0, 0, 0, 0, 0, 0) + b"\0\0\xff\xff" * side * side + mask


def ico():
    images = [(16, ico_bitmap(16)), (8, ico_bitmap(8))]
    out, at = le("HHH", 0, 1, len(images)), 6 + 16 * len(images)
    for side, image in images:
        out += le("BBBBHHII", side, side, 0, 0, 1, 32, len(image), at)
        at += len(image)
    return out + b"".join(image for _, image in images)


def tiff():
    """Big order: a picture of 4 by 1 with a resolution at an offset, and a second directory further on."""
    def field(tag, kind, count, value):
        return be("HHI", tag, kind, count) + (be("HH", value, 0) if kind == 3 and count == 1 else be("I", value))

    fields = [field(256, 3, 1, 4), field(257, 3, 1, 1), field(258, 3, 1, 8), field(259, 3, 1, 1), field(262, 3, 1, 1),
              field(273, 4, 1, 130), field(278, 4, 1, 1), field(279, 4, 1, 4), field(282, 5, 1, 122)]
    first = be("H", len(fields)) + b"".join(fields) + be("I", 134)
    second = be("H", 2) + field(256, 4, 1, 2) + field(257, 4, 1, 1) + be("I", 0)
    return b"MM" + be("HI", 42, 8) + first + be("II", 300, 1) + b"\x00\x55\xaa\xff" + second


# ---- sound and film

def wav():
    file = io.BytesIO()
    with wave.open(file, "wb") as out:
        out.setnchannels(2)
        out.setsampwidth(2)
        out.setframerate(44100)
        out.writeframes(b"\1\0\2\0" * 50)
    return file.getvalue()


def riff_chunk(kind, data):
    return kind + le("I", len(data)) + data + b"\0" * (len(data) % 2)


def riff():
    """A WAVE form with an odd list, so that one chunk is padded."""
    info = b"INFO" + riff_chunk(b"INAM", b"abc") + riff_chunk(b"IART", b"me")
    fmt = le("HHIIHH", 1, 1, 8000, 8000, 1, 8)
    form = b"WAVE" + riff_chunk(b"fmt ", fmt) + riff_chunk(b"LIST", info) + riff_chunk(b"data", b"\x80" * 7)
    return riff_chunk(b"RIFF", form)


def box(kind, data, wide=False):
    if wide:
        return be("I", 1) + kind + be("Q", 16 + len(data)) + data
    return be("I", 8 + len(data)) + kind + data


def mp4():
    """One film of 2.5 seconds with one picture track of two samples, whose data is none; one size of 64 bits."""
    matrix = be("9I", 0x10000, 0, 0, 0, 0x10000, 0, 0, 0, 0x40000000)
    mvhd = box(b"mvhd", be("IIIIIIH10x", 0, 0, 0, 600, 1500, 0x10000, 0x100) + matrix + be("6I", 0, 0, 0, 0, 0, 0) + be("I", 2))
    tkhd = box(b"tkhd", be("IIIIIIQHHHH", 7, 0, 0, 1, 0, 1500, 0, 0, 0, 0, 0) + matrix + be("II", 320 << 16, 240 << 16))
    mdhd = box(b"mdhd", be("IIIIIHH", 0, 0, 0, 90000, 225000, 0x55c4, 0))
    hdlr = box(b"hdlr", be("II", 0, 0) + b"vide" + b"\0" * 12 + b"film\0")
    video = box(b"avc1", be("6xHHH12xHHIIIH32sHh", 1, 0, 0, 320, 240, 72 << 16, 72 << 16, 0, 1, b"", 24, -1) + box(b"avcC", b"\1\x42\0\x1e\xff\xe0\0"))
    tables = box(b"stsd", be("II", 0, 1) + video) + box(b"stts", be("IIII", 0, 1, 2, 112500)) + box(b"ctts", be("IIIi", 1 << 24, 1, 2, -100))
    tables += box(b"stsc", be("IIIII", 0, 1, 1, 2, 1)) + box(b"stsz", be("IIIII", 0, 0, 2, 3, 2)) + box(b"stco", be("III", 0, 1, 777)) + box(b"stss",
    be("III", 0, 1, 1))
    minf = box(b"minf", box(b"vmhd", be("IHHHH", 1, 0, 0, 0, 0)) + box(b"dinf", box(b"dref", be("II", 0, 1) + box(b"url ", be("I", 1)))) + box(b"stbl",
    tables))
    mdia = box(b"mdia", mdhd + hdlr + minf, wide=True)
    moov = box(b"moov", mvhd + box(b"trak", tkhd + mdia))
    return box(b"ftyp", b"isom" + be("I", 512) + b"isomiso2") + moov + box(b"mdat", b"\1\2\3\4\5")


def midi():
    """Format 1, two tracks; the second has notes in running status, and a delta of two bytes."""
    first = b"\0\xff\x51\x03" + (500000).to_bytes(3, "big") + b"\0\xff\x2f\0"
    second = b"\0\xc0\x05\0\x90\x3c\x40\x81\x70\x3c\0\0\x3e\x40\x60\x3e\0\0\xff\x2f\0"
    tracks = b"".join(b"MTrk" + be("I", len(track)) + track for track in (first, second))
    return b"MThd" + be("IHHH", 6, 1, 2, 480) + tracks


def ogg_crc(data):
    value = 0
    for byte in data:
        value ^= byte << 24
        for _ in range(8):
            value = (value << 1 ^ 0x04c11db7 if value & 0x80000000 else value << 1) & 0xffffffff
    return value


def ogg_page(flags, granule, sequence, segments):
    head = b"OggS\0" + le("BQII", flags, granule, 1234, sequence)
    rest = bytes([len(segments)]) + bytes(len(part) for part in segments) + b"".join(segments)
    return head + le("I", ogg_crc(head + le("I", 0) + rest)) + rest


def ogg():
    """The first packet of Vorbis, its comments, a page with two segments of which one is empty, and a last page."""
    first = b"\1vorbis" + le("IBIIIIBB", 0, 2, 44100, 0, 112000, 0, 0xb8, 1)
    comments = b"\3vorbis" + le("I", 7) + b"by hand" + le("II", 1, 9) + b"TITLE=Red\1"
    return ogg_page(2, 0, 0, [first]) + ogg_page(0, 0, 1, [comments]) + ogg_page(0, 0, 2, [b"", b"abc"]) + ogg_page(4, 4096, 3, [b"de"])


def flac_block(kind, data, last=False):
    return bytes([kind | 128 * last]) + len(data).to_bytes(3, "big") + data


def flac():
    packed = 44100 << 44 | 1 << 41 | 15 << 36 | 88200
    info = be("HH", 4096, 4096) + b"\0\0\x0e\0\x10\0" + be("Q", packed) + bytes(range(16))
    maker, title = b"by hand", b"TITLE=Red"
    comments = le("I", len(maker)) + maker + le("I", 1) + le("I", len(title)) + title
    return b"fLaC" + flac_block(0, info) + flac_block(4, comments) + flac_block(1, b"\0" * 5, last=True)


# ---- archives

def zip_():
    file = io.BytesIO()
    with zipfile.ZipFile(file, "w") as out:
        for name, data, method in (("a.txt", b"hello\n", 0), ("dir/b.txt", b"hello " * 50, 8)):
            info = zipfile.ZipInfo(name, (2024, 2, 29, 12, 30, 58))
            info.compress_type = method
            info.external_attr = 0o644 << 16
            out.writestr(info, data)
        out.comment = b"a comment"
    return file.getvalue()


def tar():
    file = io.BytesIO()
    with tarfile.open(fileobj=file, mode="w", format=tarfile.USTAR_FORMAT) as out:
        for name, data, mode in (("a.txt", b"hello\n", 0o644), ("dir/b.sh", b"#" * 700, 0o755)):
            info = tarfile.TarInfo(name)
            info.size, info.mode, info.mtime, info.uid, info.gid = len(data), mode, 1709209858, 1000, 100
            out.addfile(info, io.BytesIO(data))
    return file.getvalue()


def gzip_():
    file = io.BytesIO()
    with gzip.GzipFile("hello.txt", "wb", 9, file, mtime=1709209858) as out:
        out.write(b"hello " * 20)
    return file.getvalue()


def ar():
    out = b"!<arch>\n"
    for name, data, mode in ((b"a.txt/", b"hello", 0o100644), (b"b.txt/", b"abcd", 0o100755)):
        out += b"%-16s%-12d%-6d%-6d%-8o%-10d`\n" % (name, 1709209858, 1000, 100, mode, len(data)) + data + b"\n" * (len(data) % 2)
    return out


def cpio_member(inode, name, data, mode):
    fields = (inode, mode, 1000, 100, 1, 1709209858, len(data), 8, 1, 0, 0, len(name) + 1, 0)
    head = b"070701" + b"".join(b"%08x" % field for field in fields) + name + b"\0"
    return head + b"\0" * (-len(head) % 4) + data + b"\0" * (-len(data) % 4)


def cpio():
    out = cpio_member(11, b"a.txt", b"hello\n", 0o100644) + cpio_member(12, b"dir/b.txt", b"abc", 0o100600)
    out += cpio_member(0, b"TRAILER!!!", b"", 0)
    return out + b"\0" * (-len(out) % 512)


# ---- programs

def java_class():
    """Class Hi with a field of a constant long, which takes two numbers of the pool."""
    def text(value):
        return b"\1" + be("H", len(value)) + value

    pool = [text(b"Hi"), be("BH", 7, 1), text(b"java/lang/Object"), be("BH", 7, 3), text(b"big"), text(b"J"),
            text(b"ConstantValue"), be("BQ", 5, 1 << 40), text(b"SourceFile"), text(b"Hi.java")]
    field = be("HHHH", 0x19, 5, 6, 1) + be("HIH", 7, 2, 8)
    return (be("IHHH", 0xcafebabe, 0, 52, len(pool) + 2) + b"".join(pool) + be("HHH", 0x21, 2, 4) + be("H", 0)
            + be("H", 1) + field + be("H", 0) + be("H", 1) + be("HIH", 10, 2, 11))


def leb(value):
    out = b""
    while value > 127:
        out, value = out + bytes([value & 127 | 128]), value >> 7
    return out + bytes([value])


def wasm_section(number, data):
    return bytes([number]) + leb(len(data)) + data


def wasm():
    """One imported function, one that adds, exported with the memory; a custom section of more than 127 bytes."""
    types = b"\2" + b"\x60\1\x7f\0" + b"\x60\2\x7f\x7f\1\x7f"
    body = b"\0\x20\0\x20\1\x6a\x0b"
    return (b"\0asm" + le("I", 1) + wasm_section(1, types) + wasm_section(2, b"\1\3env\3log\0\0")
            + wasm_section(3, b"\1\1") + wasm_section(5, b"\1\1\1\2")
            + wasm_section(7, b"\2\3add\0\1\6memory\2\0") + wasm_section(10, b"\1" + leb(len(body)) + body)
            + wasm_section(0, b"\4note" + b"x" * 200))


def macho():
    """64 bits, x86-64: one segment of text with one section, an identifier, an entry."""
    code = b"\x31\xc0\xc3\x90"
    head = 32 + 152 + 24 + 24
    section = le("16s16sQQIIIIIIII", b"__text", b"__TEXT", 0x100000000 + head, 4, head, 2, 0, 0, 0x80000400, 0, 0, 0)
    segment = le("II16sQQQQIIII", 0x19, 152, b"__TEXT", 0x100000000, 0x1000, 0, head + 4, 5, 5, 1, 0) + section
    rest = le("II", 0x1b, 24) + bytes(range(16)) + le("IIQQ", 0x80000028, 24, head, 0)
    return le("IIIIIIII", 0xfeedfacf, 0x1000007, 3, 2, 3, 200, 0x200085, 0) + segment + rest + code


def elf_notes():
    """An ELF file with one section of notes: an identifier of the build, and one of another maker with an odd name."""
    notes = le("III", 4, 20, 3) + b"GNU\0" + bytes(range(20)) + le("III", 6, 3, 7) + b"other\0\0\0" + b"abc\0"
    names = b"\0.note.test\0.shstrtab\0"
    table = 64 + len(notes) + len(names)
    table += -table % 8
    sections = [(0, 0, 0, 0, 0), (1, 7, 64, len(notes), 4), (12, 3, 64 + len(notes), len(names), 1)]
    out = b"\x7fELF\2\1\1" + b"\0" * 9 + le("HHIQQQIHHHHHH", 1, 62, 1, 0, 0, table, 0, 64, 0, 0, 64, 3, 2) + notes + names
    out += b"\0" * (table - len(out))
    for name, kind, offset, size, align in sections:
        out += le("IIQQQQIIQQ", name, kind, 0, 0, offset, size, 0, 0, align, 0)
    return out


def elf_dynamic():
    """A shared object, as far as its sections say: a library that is needed, a symbol, a relocation of each form."""
    texts = b"\0libred.so\0red\0"
    symbols = b"\0" * 24 + le("IBBHQQ", 11, 0x12, 0, 1, 0x1000, 8)
    parts = [(3, texts, 0, 0), (11, symbols, 24, 1), (6, le("QQQQQQ", 1, 1, 5, 0x500, 0, 0), 16, 1), (4, le("QQq", 0x2000, 1 << 32 | 6, -8), 24, 2),
             (9, le("QQ", 0x2008, 8), 16, 2)]
    body, table = b"", b"\0" * 64
    for kind, data, entry, link in parts:
        table += le("IIQQQQIIQQ", 0, kind, 2, 0x500 if kind == 3 else 0, 64 + len(body), len(data), link, 1, 8, entry)
        body += data + b"\0" * (-len(data) % 8)
    return b"\x7fELF\2\1\1" + b"\0" * 9 + le("HHIQQQIHHHHHH", 3, 62, 1, 0, 0, 64 + len(body), 0, 64, 0, 0, 64, 6, 0) + body + table


def pe_imports():
    """64 bits, one section at 0x1000: a function by name and one by number of red.dll, one name that is given, one resource."""
    rva, raw = 0x1000, 0x200
    body = le("5I", rva + 40, 0, 0, rva + 64, rva + 40) + b"\0" * 20  # imports
    body += le("3Q", rva + 72, 1 << 63 | 7, 0) + b"red.dll\0" + le("H", 3) + b"paint\0"  # thunks, names
    exports = len(body)
    body += le("IIHHIIIIIII", 0, 0, 1, 0, rva + exports + 50, 1, 1, 1, rva + exports + 40, rva + exports + 44, rva + exports + 48)
    body += le("IIH", rva, rva + exports + 58, 0) + b"own.dll\0" + b"give\0\0"
    resources = len(body)
    body += le("IIHHHHII", 0, 0, 4, 0, 0, 1, 10, 24) + le("IIII", rva + resources + 40, 3, 1252, 0) + b"abc\0"
    head = b"MZ".ljust(60, b"\0") + le("I", 64) + b"PE\0\0" + le("HHIIIHH", 0x8664, 1, 0, 0, 0, 240, 0x2022)
    optional = le("HBBIIIIIQIIHHHHHHIIIIHHQQQQII", 0x20b, 14, 0, 0, 512, 0, 0, rva, 0x180000000, 0x1000, 0x200, 6, 0, 0, 0, 6, 0, 0, 0x2000, 0x200, 0, 3, 0,
                  0x100000, 0x1000, 0x100000, 0x1000, 0, 16)
    places = [(rva + exports, resources - exports), (rva, 40), (rva + resources, len(body) - resources)] + [(0, 0)] * 13
    optional += b"".join(le("II", *place) for place in places)
    section = b".rdata\0\0" + le("IIIIIIHHI", len(body), rva, 512, raw, 0, 0, 0, 0, 0x40000040)
    return (head + optional + section).ljust(raw, b"\0") + body.ljust(512, b"\0")


# ---- values, texts, messages

def msgpack():
    """A map with numbers of all signs, an array, texts, bytes, a float, an extension."""
    pairs = [b"\xa1a" + b"\x94\x07\xff\xd1\xff\x00\xd3" + be("q", -2 ** 40), b"\xa1b" + b"\xc0", b"\xa1c" + b"\xc4\x03xyz",
             b"\xd9\x01d" + b"\xcb" + be("d", 1.5), b"\xa1e" + b"\xd4\x05!", b"\xa1f" + b"\xcf" + be("Q", 2 ** 63 + 1),
             b"\xa1g" + b"\xdc\x00\x02\xc2\xc3"]
    return bytes([0x80 + len(pairs)]) + b"".join(pairs)


def cbor():
    """A map of known size: numbers, an array and texts of unknown size, a tag, a float."""
    pairs = [b"\x61a" + b"\x84\x17\x18\xff\x38\xff\x1b" + be("Q", 2 ** 40), b"\x61b" + b"\x9f\x01\x9f\xff\x02\xff",
             b"\x61c" + b"\x7f\x62he\x63llo\xff", b"\x61d" + b"\xc1\x1a" + be("I", 1709209858),
             b"\x61e" + b"\xfb" + be("d", 1.5), b"\x61f" + b"\xf5"]
    return bytes([0xa0 + len(pairs)]) + b"".join(pairs)


def tlv(tag, data):
    size = len(data)
    if size < 128:
        return bytes([tag, size]) + data
    head = size.to_bytes((size.bit_length() + 7) // 8, "big")
    return bytes([tag, 128 + len(head)]) + head + data


def der():
    """A sequence: numbers, a name of an algorithm, a text of 200 bytes, one that is tagged."""
    name = tlv(6, bytes.fromhex("2a864886f70d01010b"))
    return tlv(0x30, tlv(2, b"\1\0") + tlv(2, b"\xff") + name + tlv(12, b"x" * 200) + tlv(0xa0, tlv(2, b"\x2a")) + tlv(5, b""))


def ber():
    """A sequence of unknown length with a text in two pieces, and a number behind it."""
    return b"\x30\x80" + tlv(2, b"\x2a") + b"\x24\x80" + tlv(4, b"he") + tlv(4, b"llo") + b"\0\0" + b"\0\0" + tlv(2, b"\x07")


def x509():
    """A certificate for red, which names a host, may sign others, and has numbers for its key and its signature."""
    def oid(text):
        return tlv(6, bytes.fromhex(text))

    def name(text):
        return tlv(0x30, tlv(0x31, tlv(0x30, oid("550403") + tlv(12, text))))

    algorithm = tlv(0x30, oid("2a864886f70d01010b") + tlv(5, b""))
    dates = tlv(0x30, tlv(0x17, b"240229123058Z") + tlv(0x18, b"20540229123058Z"))
    number = tlv(0x30, tlv(2, b"\0" + bytes(range(128, 256))) + tlv(2, b"\1\0\1"))
    key = tlv(0x30, tlv(0x30, oid("2a864886f70d010101") + tlv(5, b"")) + tlv(3, b"\0" + number))
    parts = [tlv(0x30, oid("551d11") + tlv(4, tlv(0x30, tlv(0x82, b"example.org")))), tlv(0x30, oid("551d0f") + b"\1\1\xff" + tlv(4, tlv(3, b"\5\xa0"))),
             tlv(0x30, oid("551d13") + b"\1\1\xff" + tlv(4, tlv(0x30, b"\1\1\xff" + b"\2\1\3")))]
    extensions = tlv(0xa3, tlv(0x30, b"".join(parts)))
    inner = tlv(0x30, tlv(0xa0, b"\2\1\2") + tlv(2, b"\x12\x34") + algorithm + name(b"blue") + dates + name(b"red") + key + extensions)
    return tlv(0x30, inner + algorithm + tlv(3, b"\0" + bytes(range(128))))


TEXT = "a\u00e9\u20ac\ud7ff\ue000\U0001d11e\n\U0010ffff"


def utf8():
    return TEXT.encode()


def dns_name(name):
    return b"".join(bytes([len(part)]) + part for part in name.split(b".")) + b"\0"


def dns():
    """An answer: an address by name, a mail server, a text; the last two names are written as pointers."""
    head = be("HHHHHH", 0x1234, 0x8180, 1, 3, 0, 1)
    question = dns_name(b"www.example.org") + be("HH", 1, 1)
    records = dns_name(b"www.example.org") + be("HHIH4B", 1, 1, 300, 4, 192, 0, 2, 7)
    mail = be("H", 10) + dns_name(b"mail.example.org")
    records += dns_name(b"example.org") + be("HHIH", 15, 1, 600, len(mail)) + mail
    records += be("HHHIH", 0xc00c, 16, 1, 60, 6) + b"\x05hello"
    return head + question + records + be("HHHIH16B", 0xc00c, 28, 1, 60, 16, *([0x20, 1] + [0] * 13 + [1]))


def tls():
    """A hello of a client that names its server, then an alert that closes."""
    host = b"example.org"
    names = be("HBH", len(host) + 3, 0, len(host)) + host
    extensions = be("HH", 0, len(names)) + names + be("HHBH", 43, 3, 2, 0x304)
    body = be("H", 0x303) + bytes(range(32)) + b"\0" + be("HHH", 4, 0x1301, 0xc02f) + b"\1\0" + be("H", len(extensions)) + extensions
    hello = b"\1" + len(body).to_bytes(3, "big") + body
    return be("BHH", 22, 0x301, len(hello)) + hello + be("BHHBB", 21, 0x303, 2, 1, 0)


def pcapng_block(kind, body):
    size = 12 + len(body) + -len(body) % 4
    return le("II", kind, size) + body + b"\0" * (-len(body) % 4) + le("I", size)


def pcapng():
    """A section with a comment, an interface of raw IP, and a packet of 30 bytes: IPv4, UDP, two bytes of data."""
    comment = le("HH", 1, 5) + b"hello" + b"\0" * 3 + le("HH", 0, 0)
    packet = bytes.fromhex("4500001e00004000401166cc0a0000010a00000203e807d0000a0000") + b"hi"
    first = pcapng_block(0x0a0d0d0a, le("IHHq", 0x1a2b3c4d, 1, 0, -1) + comment)
    interface = pcapng_block(1, le("HHI", 101, 0, 65535))
    data = le("IIIII", 0, 0x61234, 0x56789abc, len(packet), len(packet)) + packet + b"\0\0"
    return first + interface + pcapng_block(6, data)


def packets():
    """Three packets of Ethernet: who has an address, a question of DNS over IPv4, a TCP segment over IPv6 within a VLAN."""
    macs = bytes.fromhex("ffffffffffff") + bytes.fromhex("020000000001")
    arp = macs + be("HHHBBH", 0x806, 1, 0x800, 6, 4, 1) + macs[6:] + bytes([10, 0, 0, 1]) + b"\0" * 6 + bytes([10, 0, 0, 2])
    question = be("6H", 0x1234, 0x100, 1, 0, 0, 0) + dns_name(b"example.org") + be("HH", 1, 1)
    udp = be("HHHH", 40000, 53, 8 + len(question), 0) + question
    ip = be("BBHHHBBHII", 0x45, 0, 20 + len(udp), 7, 0x4000, 64, 17, 0, 0x0a000001, 0x0a000002) + udp
    tcp = be("HHIIHHHH", 443, 50000, 1000, 2000, 0x6012, 8192, 0, 0) + be("BBH", 2, 4, 1460) + b"hi"
    ip6 = be("IHBB", 0x60012345, len(tcp), 6, 64) + bytes.fromhex("20010db8" + "00" * 11 + "01") + bytes.fromhex("20010db8" + "00" * 11 + "02") + tcp
    frames = [arp, macs + be("H", 0x800) + ip, macs + be("HHH", 0x8100, 5, 0x86dd) + ip6]
    head = be("IHHiIII", 0xa1b2c3d4, 2, 4, 0, 0, 65535, 1)
    return head + b"".join(be("IIII", 1709209858, i, len(frame), len(frame)) + frame for i, frame in enumerate(frames))


# ---- disks and databases

def fat():
    """FAT12 of 64 sectors with a label and one file."""
    boot = b"\xeb\x3c\x90IPGTEST " + le("HBHBHHBHHHII", 512, 1, 1, 2, 16, 64, 0xf8, 1, 32, 2, 0, 0)
    boot += le("BBBI", 0x80, 0, 0x29, 0x12345678) + b"SAMPLE     " + b"FAT12   "
    table = b"\xf8\xff\xff\xff\x0f\0"
    label = b"SAMPLE     " + b"\x08" + b"\0" * 20
    file = b"HELLO   TXT" + b"\x20" + b"\0" * 10 + le("HHHI", 0x63c0, 0x585d, 2, 6)
    return (boot.ljust(510, b"\0") + b"\x55\xaa" + table.ljust(512, b"\0") * 2 + (label + file).ljust(512, b"\0")
            + b"hello\n".ljust(512, b"\0")).ljust(64 * 512, b"\0")


def mbr():
    first = bytes([0x80, 32, 33, 0, 0x83, 0, 2, 64]) + le("II", 2048, 4096)
    second = bytes([0, 0, 3, 64, 0x0b, 1, 0x44, 128]) + le("II", 6144, 8192)
    return (b"\xfa\xf4".ljust(440, b"\0") + le("IH", 0x12345678, 0) + first + second + b"\0" * 32 + b"\x55\xaa")


def gpt_head(own, other, table, crc, sectors):
    guid = bytes(range(16))

    def text(crc_own):
        return b"EFI PART" + le("IIIIQQQQ16sQIII", 0x10000, 92, crc_own, 0, own, other, 34, sectors - 34, guid, table, 128, 128, crc)

    return text(zlib.crc32(text(0))).ljust(512, b"\0")


def gpt():
    """128 sectors with one partition of Linux data and 128 places for entries, the second table behind."""
    sectors = 128
    kind = bytes.fromhex("af3dc60f838472478e793d69d8477de4")
    entry = kind + bytes(range(16, 32)) + le("QQQ", 40, 79, 0) + "data".encode("utf-16-le").ljust(72, b"\0")
    table = entry.ljust(128 * 128, b"\0")
    mbr_entry = bytes([0, 0, 2, 0, 0xee, 0xff, 0xff, 0xff]) + le("II", 1, sectors - 1)
    first = (b"\0" * 446 + mbr_entry).ljust(510, b"\0") + b"\x55\xaa"
    crc = zlib.crc32(table)
    out = first + gpt_head(1, sectors - 1, 2, crc, sectors) + table
    out = out.ljust((sectors - 33) * 512, b"\0") + table + gpt_head(sectors - 1, 1, sectors - 33, crc, sectors)
    return out


def sqlite():
    """A table of three rows and an index, on pages of 1,024 bytes."""
    with tempfile.TemporaryDirectory() as folder:
        name = os.path.join(folder, "sample")
        base = sqlite3.connect(name)
        base.executescript("pragma page_size = 1024; pragma user_version = 7; pragma application_id = 4242;"
                           "create table t (id integer primary key, x text); create index i on t (x);"
                           "insert into t values (1, 'a'), (5, 'b'), (300, 'c');")
        base.close()
        with open(name, "rb") as file:
            return file.read()


# ---- pictures and fonts, further ones

def ifd(order, fields, next_=0):
    """A directory of TIFF: each field has its tag, type, count and four bytes."""
    out = struct.pack(order + "H", len(fields))
    for tag, kind, count, value in fields:
        out += struct.pack(order + "HHI", tag, kind, count) + value
    return out + struct.pack(order + "I", next_)


def exif():
    """The maker, the resolution as a fraction, and behind them the directory of EXIF with a time of exposure and a sensitivity."""
    first = 8 + 2 + 3 * 12 + 4
    texts = b"Maker\0" + le("II", 72, 1)
    second = first + len(texts)
    fields = [(271, 2, 6, le("I", first)), (282, 5, 1, le("I", first + 6)), (34665, 4, 1, le("I", second))]
    inner = [(33434, 5, 1, le("I", second + 2 + 2 * 12 + 4)), (34855, 3, 1, le("HH", 400, 0))]
    return b"II" + le("HI", 42, 8) + ifd("<", fields) + texts + ifd("<", inner) + le("II", 1, 125)


def jpeg_segment(marker, data):
    return bytes([255, marker]) + be("H", 2 + len(data)) + data


def jpeg():
    """Eight by eight grey: one table of each kind; the packed data has a stuffed byte, and is none that a decoder would like."""
    head = b"\xff\xd8" + jpeg_segment(0xe0, b"JFIF\0" + be("BBBHHBB", 1, 2, 1, 72, 72, 0, 0)) + jpeg_segment(0xe1, b"Exif\0\0" + exif())
    tables = jpeg_segment(0xdb, b"\0" + bytes([1] * 64)) + jpeg_segment(0xc0, be("BHHBBBB", 8, 8, 8, 1, 1, 0x11, 0))
    tables += jpeg_segment(0xc4, b"\0" + bytes([1] + [0] * 15) + b"\0") + jpeg_segment(0xc4, b"\x10" + bytes([1] + [0] * 15) + b"\0")
    return head + tables + jpeg_segment(0xda, be("BBBBBB", 1, 1, 0, 0, 63, 0)) + b"\x3f" * 9 + b"\xff\0\x3f" + b"\xff\xd9"


def webp():
    """A lossless picture of 3 by 2, of which the head alone is right, in the extended form with a note of its own."""
    extended = riff_chunk(b"VP8X", le("B3xHBHB", 0, 2, 0, 1, 0))
    lossless = riff_chunk(b"VP8L", b"\x2f" + le("I", 2 | 1 << 14 | 1 << 28) + b"\x07\x10")
    return riff_chunk(b"RIFF", b"WEBP" + extended + lossless + riff_chunk(b"NOTE", b"abc"))


def psd():
    """Four by two, three channels, one resource of a resolution with a name of an odd length."""
    resource = b"8BIM" + be("HB", 1005, 3) + b"abc" + be("I", 16) + be("IHHIHH", 72 << 16, 1, 1, 72 << 16, 1, 1)
    head = b"8BPS" + be("H6xHIIHH", 1, 3, 2, 4, 8, 3)
    return head + be("I", 0) + be("I", len(resource)) + resource + be("I", 0) + be("H", 0) + b"\x80" * 24


def dds():
    """Four by four in DXT1, one block of eight bytes."""
    pixels = le("II4sIIIII", 32, 4, b"DXT1", 0, 0, 0, 0, 0)
    return b"DDS " + le("IIIIIII44x", 124, 0x81007, 4, 4, 8, 0, 1) + pixels + le("IIIII", 0x1000, 0, 0, 0, 0) + b"\0\xf8\0\0\0\0\0\0"


def icc():
    """A profile of a display: a text, a white point, a curve with one number."""
    data = [(b"cprt", b"text" + b"\0" * 4 + b"free\0"), (b"wtpt", b"XYZ \0\0\0\0" + be("iii", 63190, 65536, 54061)),
            (b"rTRC", b"curv\0\0\0\0" + be("IH", 1, 0x233))]
    table, body, at = be("I", len(data)), b"", 132 + 12 * len(data)
    for tag, element in data:
        table += tag + be("II", at + len(body), len(element))
        body += element + b"\0" * (-len(element) % 4)
    head = b"none" + be("I", 0x02400000) + b"mntrRGB XYZ " + be("6H", 2024, 2, 29, 12, 30, 59) + b"acspAPPL" + be("II4sQI", 0, 0, b"", 0, 0)
    head = head[:40] + b"\0\0\0\0" * 6 + be("iii", 63190, 65536, 54061) + b"none" + b"\0" * 44
    return be("I", 128 + len(table) + len(body)) + head + table + body


def sfnt_tables():
    """The tables of a font that are heads alone: `head`, `maxp`, `name`."""
    head = be("IIIIHH", 0x10000, 0x18000, 0, 0x5f0f3cf5, 3, 1000) + be("QQhhhhHHhhh", 0, 0, -10, -200, 900, 800, 0, 8, 2, 0, 0)
    text = "Red".encode("utf-16-be")
    name = be("HHH", 0, 1, 18) + be("HHHHHH", 3, 1, 0x409, 1, len(text), 0) + text
    return [(b"head", head), (b"maxp", be("IH", 0x5000, 7)), (b"name", name)]


def sfnt():
    tables = sfnt_tables()
    out, body, at = be("IHHHH", 0x10000, len(tables), 32, 1, 16), b"", 12 + 16 * len(tables)
    for tag, data in tables:
        padded = data + b"\0" * (-len(data) % 4)
        total = sum(struct.unpack(f">{len(padded) // 4}I", padded)) & 0xffffffff
        out += tag + be("III", total, at + len(body), len(data))
        body += padded
    return out + body


def woff():
    """One table packed, two plain."""
    tables, body, entries = sfnt_tables(), b"", b""
    at = 44 + 20 * len(tables)
    for tag, data in tables:
        packed = zlib.compress(data)
        packed = packed if len(packed) < len(data) else data
        entries += tag + be("IIII", at + len(body), len(packed), len(data), 0)
        body += packed + b"\0" * (-len(packed) % 4)
    return b"wOFF" + be("IIHHIHHIIIII", 0x10000, at + len(body), len(tables), 0, len(sfnt()), 1, 0, 0, 0, 0, 0, 0) + entries + body


# ---- sound and film, models

def ebml(identifier, data):
    size = len(data)
    return bytes.fromhex(identifier) + (bytes([128 + size]) if size < 127 else be("H", 0x4000 + size)) + data


def matroska():
    """A head, a track of sound, and a cluster with one block; the size of the whole is unknown."""
    head = ebml("1a45dfa3", ebml("4286", b"\1") + ebml("42f7", b"\1") + ebml("4282", b"webm") + ebml("4287", b"\4"))
    info = ebml("1549a966", ebml("2ad7b1", (1000000).to_bytes(3, "big")) + ebml("4d80", b"by hand"))
    track = ebml("ae", ebml("d7", b"\1") + ebml("83", b"\2") + ebml("86", b"A_OPUS") + ebml("e1", ebml("9f", b"\2")))
    cluster = ebml("1f43b675", ebml("e7", b"\x03\xe8") + ebml("a3", b"\x81\xff\xf6\x80" + b"x" * 130))
    return head + bytes.fromhex("1853806701ffffffffffffff") + info + ebml("1654ae6b", track) + cluster


def glb():
    text = b'{"asset":{"version":"2.0"}}'
    text += b" " * (-len(text) % 4)
    body = le("I", len(text)) + b"JSON" + text + le("I", 8) + b"BIN\0" + le("ff", 1.5, -2)
    return b"glTF" + le("II", 2, 12 + len(body)) + body


def stl():
    """Two triangles."""
    return b"by hand".ljust(80, b"\0") + le("I", 2) + le("12fH", 0, 0, 1, 0, 0, 0, 1, 0, 0, 0, 1, 0, 0) + le("12fH", 0, 0, 1, *[2] * 9, 5)


# ---- archives, further ones

def xz():
    return lzma.compress(b"hello " * 20, lzma.FORMAT_XZ, lzma.CHECK_CRC32, preset=0)


def sevenzip():
    """A header that is plain, and has nothing behind its first byte but the end."""
    packed, header = b"packed", b"\1\0"
    start = le("QQI", len(packed), len(header), zlib.crc32(header))
    return b"7z\xbc\xaf\x27\x1c" + le("BBI", 0, 4, zlib.crc32(start)) + start + packed + header


def zstd():
    """A frame with a plain block, a byte that comes ten times, and no more; then a frame to be skipped."""
    blocks = (5 << 3).to_bytes(3, "little") + b"hello" + (10 << 3 | 1 << 1 | 1).to_bytes(3, "little") + b"x"
    return b"\x28\xb5\x2f\xfd" + le("BB", 0x20, 15) + blocks + le("II", 0x184d2a53, 3) + b"abc"


def lz4():
    """A frame with its content's size, a plain block and a packed one: five letters, then eleven that repeat the last."""
    head = b"\x60\x40"
    head = le("BBQ", 0x68, 0x40, 21)
    frame = b"\x04\x22\x4d\x18" + head + bytes([lz4_check(head)])
    return frame + le("I", 0x80000005) + b"hello" + le("I", 14) + b"\x17x\1\0\x50abcdefghi"[:14] + le("I", 0)


def lz4_check(data):
    """The second byte of XXH32 of the head, as the standard has it: the steps for less than 16 bytes."""
    prime = (2654435761, 2246822519, 3266489917, 668265263, 374761393)
    value = (prime[4] + len(data)) & 0xffffffff
    at = 0
    while at + 4 <= len(data):
        value = (value + struct.unpack_from("<I", data, at)[0] * prime[2]) & 0xffffffff
        value = (value << 17 | value >> 15) * prime[3] & 0xffffffff
        at += 4
    for byte in data[at:]:
        value = (value + byte * prime[4]) & 0xffffffff
        value = (value << 11 | value >> 21) * prime[0] & 0xffffffff
    value = (value ^ value >> 15) * prime[1] & 0xffffffff
    value = (value ^ value >> 13) * prime[2] & 0xffffffff
    return (value ^ value >> 16) >> 8 & 255


def torrent():
    info = b"d6:lengthi20e4:name5:a.txt12:piece lengthi16384e6:pieces20:" + bytes(range(65, 85)) + b"e"
    return b"d8:announce18:http://example.org13:creation datei1709209858e4:info" + info + b"3:negi-7ee"


# ---- programs, further ones

def pyc():
    """A tuple in the place of a module: numbers, texts, a dictionary, a list with a reference to it; as Python 3.11 has it."""
    value = (1, -2, 1 << 40, 1.5, "a", "\u20ac", b"xyz", None, True, {"k": [3]}, frozenset())
    return le("H", 3495) + b"\r\n" + le("III", 0, 1709209858, 42) + marshal.dumps(value, 2)


def dex():
    """Three strings, a type, and a map; no class."""
    texts = [b"\1A\0", b"\4LHi;\0", b"\1V\0"]
    strings, types = 112, 112 + 4 * len(texts)
    data = types + 8
    offsets = [data + sum(len(text) for text in texts[:i]) for i in range(len(texts))]
    body = b"".join(texts)
    body += b"\0" * (-len(body) % 4)
    maps = data + len(body)
    items = [(0, 1, 0), (1, 3, strings), (2, 2, types), (0x2002, 3, data), (0x1000, 1, maps)]
    body += le("I", len(items)) + b"".join(le("HHII", kind, 0, count, at) for kind, count, at in items)
    size = data + len(body)
    tables = le("3I", *offsets) + le("II", 1, 2)
    head = le("20I", size, 112, 0x12345678, 0, 0, maps, 3, strings, 2, types, 0, 0, 0, 0, 0, 0, 0, 0, size - data, data)
    signed = hashlib.sha1(head + tables + body).digest() + head + tables + body
    return b"dex\n035\0" + le("I", zlib.adler32(signed)) + signed


def lnk():
    """A shortcut with one item, a description, arguments and one further block."""
    head = le("I", 76) + bytes.fromhex("0114020000000000c000000000000046") + le("IIQQQIIIH10x", 0xa5, 0x20, 0, 0, 0, 4096, 3, 1, 0)
    items = le("H", 6) + b"abcd" + le("H", 0)
    texts = b"".join(le("H", len(text)) + text.encode("utf-16-le") for text in ("Red", "-v"))
    return head + le("H", len(items)) + items + texts + le("III", 12, 0xa0000005, 37) + le("I", 0)


def dtb():
    """A root with a model and one node, whose property has five bytes; a range of memory that is reserved."""
    strings = b"model\0reg\0"
    tree = be("I", 1) + b"\0\0\0\0" + be("III", 3, 4, 0) + b"red\0" + be("I", 1) + b"node@1\0\0" + be("III", 3, 5, 6) + b"hello\0\0\0"
    tree += be("III", 2, 2, 9)
    reserved = be("QQQQ", 0x1000, 0x2000, 0, 0)
    at = 40 + len(reserved)
    head = be("10I", 0xd00dfeed, at + len(tree) + len(strings), at, at + len(tree), 40, 17, 16, 0, len(strings), len(tree))
    return head + reserved + tree + strings


def git_index():
    """Two entries, one of a program, and an extension that says nothing."""
    out = b"DIRC" + be("II", 2, 2)
    for name, mode, size in ((b"a.txt", 0o100644, 6), (b"dir/b.sh", 0o100755, 700)):
        out += be("10I", 1709209858, 0, 1709209859, 500, 8, 11, mode, 1000, 100, size) + bytes(range(20)) + be("H", len(name)) + name
        out += b"\0" * (8 - (62 + len(name)) % 8)
    out += b"NULL" + be("I", 3) + b"abc"
    return out + hashlib.sha1(out).digest()


def git_idx():
    """The names of two objects, with their checksums and places in the pack."""
    names = [bytes([5] + [1] * 19), bytes([200] + [2] * 19)]
    fanout = [sum(name[0] <= first for name in names) for first in range(256)]
    out = b"\xfftOc" + be("I", 2) + be("256I", *fanout) + b"".join(names) + be("II", 0x11223344, 0x55667788) + be("II", 12, 300)
    out += bytes(range(20))
    return out + hashlib.sha1(out).digest()


def git_pack():
    """One file of six bytes, stored without compression."""
    data = b"hello\n"
    stored = b"\x78\x01\x01" + le("HH", len(data), 65535 - len(data)) + data + be("I", zlib.adler32(data))
    out = b"PACK" + be("II", 2, 1) + b"\x36" + stored
    return out + hashlib.sha1(out).digest()


# ---- values, texts, messages, further ones

def bson_element(kind, name, data):
    return bytes([kind]) + name + b"\0" + data


def bson_document(*elements):
    body = b"".join(elements)
    return le("I", 5 + len(body)) + body + b"\0"


def bson():
    return bson_document(bson_element(16, b"a", le("i", -7)), bson_element(2, b"b", le("I", 4) + b"red\0"),
                         bson_element(3, b"c", bson_document(bson_element(18, b"d", le("q", -1 << 40)))), bson_element(8, b"e", b"\1"),
                         bson_element(10, b"f", b""), bson_element(5, b"g", le("IB", 3, 128) + b"xyz"), bson_element(1, b"h", le("d", 1.5)))


def openpgp():
    """A key of RSA with two numbers, a user's name in the new form, and a signature with two parts."""
    key = be("BIB", 4, 1709209858, 1) + be("H", 12) + b"\x0a\xbc" + be("H", 17) + b"\1\0\1"
    user = b"Red <red@example.org>"
    hashed = b"\5\2" + be("I", 1709209859) + b"\2\x1b\3"
    signature = be("BBBBH", 4, 0x13, 1, 8, len(hashed)) + hashed + be("H", 0) + b"\xab\xcd" + be("H", 9) + b"\1\0"
    return bytes([0x99]) + be("H", len(key)) + key + bytes([0xcd, len(user)]) + user + bytes([0x88, len(signature)]) + signature


def npy():
    text = b"{'descr': '<i2', 'fortran_order': False, 'shape': (3,), }"
    text += b" " * (-(len(text) + 11) % 64) + b"\n"
    return b"\x93NUMPY\1\0" + le("H", len(text)) + text + le("hhh", 1, -2, 3)


def mo():
    """Two messages of little order, and no table for hashing."""
    pairs = [(b"", b"Content-Type: text/plain; charset=UTF-8\n"), (b"red", b"rot")]
    at = 28 + 16 * len(pairs)
    tables, body = [], b""
    for column in (0, 1):
        for pair in pairs:
            tables.append(le("II", len(pair[column]), at + len(body)))
            body += pair[column] + b"\0"
    return le("7I", 0x950412de, 0, len(pairs), 28, 28 + 8 * len(pairs), 0, 0) + b"".join(tables) + body


# ---- what a system keeps

def tzif_block(form, version, times, types, names):
    head = b"TZif" + version + be("15x6I", 0, 0, 0, len(times), len(types), len(names))
    out = head + b"".join(be(form, at) for at, _ in times) + bytes(index for _, index in times)
    return out + b"".join(be("iBB", *one) for one in types) + names


def tzif():
    """A zone that had summer time once; the second block has a time before 1901."""
    types, names = [(3600, 0, 0), (7200, 1, 4)], b"CET\0CEST\0"
    times = [(-1693706400, 1), (-1680483600, 0)]
    return (tzif_block("i", b"2", times, types, names) + tzif_block("q", b"2", [(-2422054408, 0)] + times, types, names) + b"\nCET-1CEST\n")


def terminfo():
    """A terminal with two flags, two numbers of which one is missing, two strings; one flag and one string that a user defined."""
    names = b"red|a red one\0"
    out = le("6H", 0o432, len(names), 2, 2, 2, 7) + names + b"\1\0" + le("hh", 80, -1) + le("hh", 0, 3) + b"\x1b[\0\x1bAB\0"
    table = b"\x1bZ\0AX\0E3\0"
    return out + b"\0" + le("5H", 1, 0, 1, 3, len(table)) + b"\1\0" + le("3h", 0, 0, 3) + table


def utmp():
    """A start of the system, a session, and its end."""
    def record(kind, pid, line, user, seconds):
        return le("hxxi32s4s32s256shhiii4I20x", kind, pid, line, b"1", user, b"host", 0, 0, 0, seconds, 500, 0xc0000207, 0, 0, 0)

    return record(2, 0, b"~", b"reboot", 1709209858) + record(7, 4242, b"pts/1", b"red", 1709209860) + record(8, 4242, b"pts/1", b"", 1709209870)


def sqlite_wal():
    """Two frames on pages of 512 bytes, the second ends a commit; without checksums."""
    head = be("8I", 0x377f0682, 3007000, 512, 1, 11, 22, 33, 44)
    return head + be("6I", 1, 0, 11, 22, 0, 0) + b"a" * 512 + be("6I", 2, 2, 11, 22, 0, 0) + b"b" * 512


def minidump():
    """A list with one thread, the system's description, and a list with one range of memory."""
    place = 32 + 3 * 12
    thread = le("I", 1) + le("IIIIQQIIII", 77, 0, 0, 0, 0x7ff0, 0x1000, 16, 200, 0, 0)
    system = le("HHHBBIIIII", 9, 6, 0x9e0a, 8, 1, 10, 0, 19041, 2, 0) + b"\0" * 28
    memory = le("I", 1) + le("QII", 0x1000, 4, 0)
    out = b""
    for kind, data in ((3, thread), (7, system), (5, memory)):
        out += le("III", kind, len(data), place)
        place += len(data)
    return b"MDMP" + le("HHIIIIQ", 0xa793, 0, 3, 32, 0, 1709209858, 2) + out + thread + system + memory


def evtx():
    """One chunk with one record, whose event is no more than four bytes; with the checksums that are due."""
    event = b"\x0f\1\1\0"
    record = b"\x2a\x2a\0\0" + le("IQQ", 28 + len(event), 1, 0x1da6b0a00000000) + event + le("I", 28 + len(event))
    tables = b"\0" * 384
    chunk = b"ElfChnk\0" + le("QQQQIIII", 1, 1, 1, 1, 128, 512, 512 + len(record), zlib.crc32(record)) + b"\0" * 64
    chunk += le("II", 0, zlib.crc32(chunk[:120] + tables)) + tables + record
    head = b"ElfFile\0" + le("QQQIHHHH", 0, 0, 2, 128, 1, 3, 4096, 1) + b"\0" * 76
    return (head + le("II", 0, zlib.crc32(head))).ljust(4096, b"\0") + chunk.ljust(65536, b"\0")


def regf_cell(data):
    size = 4 + len(data) + -(4 + len(data)) % 8
    return (le("i", -size) + data).ljust(size, b"\0")


def regf():
    """A root key with one value of four bytes, which stand in the value itself; and a cell that isn't in use."""
    name, value = b"ROOT", b"count"
    value_at = 32 + 8 + 76 + len(name)
    key = b"nk" + le("HQI", 0x2c, 0x1da6b0a00000000, 0)
    key += le("IIIIIIIIIIIIIII", 0xffffffff, 0, 0, 0xffffffff, 0xffffffff, 1, value_at + 32, 0xffffffff, 0xffffffff, 0, 0, 10, 4, 0, len(name)) + name
    cells = regf_cell(key) + regf_cell(b"vk" + le("HIIIHH", len(value), 0x80000004, 42, 4, 1, 0) + value) + regf_cell(le("I", value_at))
    cells += le("I", 4096 - 32 - len(cells)).ljust(4096 - 32 - len(cells), b"\0")
    head = b"regf" + le("IIQIIIIIII", 1, 1, 0x1da6b0a00000000, 1, 5, 0, 1, 32, 4096, 1) + "sample".encode("utf-16-le").ljust(64, b"\0")
    head = head.ljust(508, b"\0")
    check = 0
    for word, in struct.iter_unpack("<I", head):
        check ^= word
    return (head + le("I", check)).ljust(4096, b"\0") + b"hbin" + le("II", 0, 4096).ljust(28, b"\0") + cells


def bzip2():
    return bz2.compress(b"hello " * 20, 1)


def rdb_text(text):
    return bytes([len(text)]) + text


def rdb():
    """A database with a text, a number that expires, a list and a hash; without a checksum."""
    out = b"REDIS0009\xfa" + rdb_text(b"redis-ver") + rdb_text(b"7.0.0") + b"\xfe\2\xfb\4\1\0" + rdb_text(b"a") + rdb_text(b"hello")
    out += b"\xfc" + le("Q", 1709209858000) + b"\0" + rdb_text(b"n") + b"\xc1" + le("h", -300)
    out += b"\1" + rdb_text(b"l") + b"\2" + rdb_text(b"x") + rdb_text(b"yz") + b"\4" + rdb_text(b"h") + b"\1" + rdb_text(b"f") + rdb_text(b"v")
    return out + b"\xff" + b"\0" * 8


def parquet():
    """Version 1 with a schema of a root and one column of numbers, two rows, and no group."""
    root = b"\x48\6schema" + b"\x15\2" + b"\0"
    column = b"\x15\2" + b"\x25\0" + b"\x18\1a" + b"\0"
    footer = b"\x15\2" + b"\x19\x2c" + root + column + b"\x16\4" + b"\x19\x0c" + b"\x28\7by hand" + b"\0"
    return b"PAR1" + b"data" + footer + le("I", len(footer)) + b"PAR1"


def arrow_message(kind, size):
    """A message's head: a table of FlatBuffers with version, kind, an empty table and the body's size."""
    fields = le("hBBQI", 4, kind, 0, size, 8)
    table = le("I", 16) + le("6H", 12, 20, 4, 6, 16, 8) + le("i", 12) + fields + le("HHi", 4, 4, 4) + b"\0" * 4
    return b"\xff" * 4 + le("I", len(table)) + table


def arrow():
    """A schema of one column of whole numbers, and one batch."""
    stream = b"ARROW1\0\0" + arrow_message(1, 0) + arrow_message(3, 8) + b"batch\0\0\0" + b"\xff" * 4 + b"\0" * 4
    root = le("I", 16) + le("6H", 12, 16, 4, 8, 0, 12) + le("ihHII", 12, 4, 0, 48, 8)
    batches = b"\0" * 4 + le("I", 1) + le("QIIQ", 64, 56, 0, 8)
    schema = le("4H", 8, 8, 0, 4) + le("iI", 8, 4) + le("II", 1, 16)
    column = le("6H", 12, 16, 4, 8, 9, 12) + le("iIBBHI", 12, 32, 1, 2, 0, 12)
    footer = root + batches + schema + column + le("4H", 8, 9, 4, 8) + le("iiB3x", 8, 32, 1) + le("I", 1) + b"a\0\0\0"
    return stream + footer + le("I", len(footer)) + b"ARROW1"


def hdf5():
    """A superblock of version 0, whose root has its heads behind it; no more than that is there."""
    none = (1 << 64) - 1
    head = b"\x89HDF\r\n\x1a\n" + le("8BHHI", 0, 0, 0, 0, 0, 8, 8, 0, 4, 16, 0)
    return head + le("QQQQ", 0, none, 800, none) + le("QQIIQQ", 0, 96, 1, 0, 136, 680) + b"\0" * 704


def pdb():
    """Five blocks of 512 bytes; a directory of one block, with two streams of which one is empty."""
    blocks = [b"Microsoft C/C++ MSF 7.00\r\n\x1aDS\0\0\0" + le("6I", 512, 1, 5, 16, 0, 3), b"\xe0", b"data", le("I", 4), le("IIII", 2, 4, 0, 2)]
    return b"".join(block.ljust(512, b"\0") for block in blocks)


def sshkey():
    """A public key of Ed25519."""
    return be("I", 11) + b"ssh-ed25519" + be("I", 32) + bytes(range(32))


def protobuf():
    """A number of 300, a text, a message with a number of its own, and numbers of 32 and of 64 bits."""
    return b"\x08\xac\x02" + b"\x12\7testing" + b"\x1a\3\x08\x96\1" + b"\x25" + le("I", 7) + b"\x29" + le("d", 1.5)


# ---- disks, further ones

def both(value):
    return le("I", value) + be("I", value)


def iso_record(name, extent, size, flags):
    out = b"\0" + both(extent) + both(size) + bytes([124, 2, 29, 12, 30, 59, 0, flags, 0, 0]) + le("H", 1) + be("H", 1) + bytes([len(name)]) + name
    out += b"\0" * (1 - len(name) % 2)
    return bytes([len(out) + 1]) + out


def iso9660():
    """A root of one sector with a directory of its own, in which one file stands, and the two path tables."""
    root = iso_record(b"\0", 20, 2048, 2)
    primary = b"\1CD001\1\0" + b"LINUX".ljust(32) + b"SAMPLE".ljust(32) + b"\0" * 8 + both(23) + b"\0" * 32
    primary += (le("H", 1) + be("H", 1)) * 2 + le("H", 2048) + be("H", 2048) + both(22) + le("II", 18, 0) + be("II", 19, 0) + root
    primary += b" " * (813 - len(primary)) + b"0" * 16 + b"\0" + b"0" * 16 + b"\0" + b"0" * 16 + b"\0" + b"0" * 16 + b"\0" + b"\1\0"
    paths = [le("BBIH", 1, 0, 20, 1) + b"\0\0" + le("BBIH", 3, 0, 21, 1) + b"DIR\0", be("BBIH", 1, 0, 20, 1) + b"\0\0" + be("BBIH", 3, 0, 21, 1) + b"DIR\0"]
    top = root + iso_record(b"\1", 20, 2048, 2) + iso_record(b"DIR", 21, 2048, 2)
    inner = iso_record(b"\0", 21, 2048, 2) + iso_record(b"\1", 20, 2048, 2) + iso_record(b"A.TXT;1", 22, 6, 0)
    sectors = [primary, b"\xffCD001\1", *paths, top, inner, b"hello\n"]
    return b"\0" * 32768 + b"".join(sector.ljust(2048, b"\0") for sector in sectors)


def ext():
    """64 blocks of 1,024 bytes, as the head has them: the superblock and one group's descriptor."""
    head = le("13I", 16, 64, 3, 40, 5, 1, 0, 0, 8192, 8192, 16, 1709209858, 1709209859) + le("HHHHHHIIII", 1, 0xffff, 0xef53, 1, 1, 0, 0, 0, 0, 1)
    head += le("HHIHHIII", 0, 0, 11, 128, 0, 0, 2, 1) + bytes(range(16)) + b"SAMPLE".ljust(16, b"\0")
    group = le("IIIHHHH", 3, 4, 5, 40, 5, 2, 0)
    return (b"\0" * 1024 + head.ljust(1024, b"\0") + group).ljust(64 * 1024, b"\0")


def squashfs():
    """A superblock, and tables of one plain block each; without data."""
    inodes, directories = le("H", 0x8000 + 32) + b"i" * 32, le("H", 0x8000 + 3) + b"dir"
    ids = 96 + len(inodes) + len(directories)
    head = le("5I6H", 0x73717368, 1, 1709209858, 131072, 0, 1, 17, 0x1c0, 1, 4, 0)
    head += le("8Q", 0, ids + 8, ids, (1 << 64) - 1, 96, 96 + len(inodes), (1 << 64) - 1, (1 << 64) - 1)
    return head + inodes + directories + le("Q", 96)


def luks():
    """The head of LUKS1 with one key in use."""
    out = b"LUKS\xba\xbe" + be("H32s32s32sII20s32sI40s", 1, b"aes", b"xts-plain64", b"sha256", 4096, 64, b"d" * 20, b"s" * 32, 1000, b"a-uuid")
    out += be("II32sII", 0x00ac71f3, 2000, b"t" * 32, 8, 4000)
    return out + b"".join(be("II32sII", 0xdead, 0, b"", 8 + 512 * i, 4000) for i in range(1, 8))


def ntfs_attribute(kind, data):
    size = 24 + len(data) + -len(data) % 8
    return (le("IIBBHHHIHBB", kind, size, 0, 0, 0, 0, 0, len(data), 24, 0, 0) + data).ljust(size, b"\0")


def ntfs():
    """Clusters of 512 bytes; the table at cluster 2 with one record of 1,024 bytes."""
    boot = b"\xeb\x52\x90NTFS    " + le("HBHBHHBHHHII", 512, 1, 0, 0, 0, 0, 0xf8, 0, 63, 255, 0, 0)
    boot += le("IQQQbxxxbxxxQ", 0x800080, 7, 2, 4, -10, 1, 0x1122334455667788)
    name = "$MFT".encode("utf-16-le")
    parts = ntfs_attribute(0x10, le("4QIIII", 1, 2, 3, 4, 6, 0, 0, 0))
    parts += ntfs_attribute(0x30, le("QQQQQQQIIBB", 5 | 5 << 48, 1, 2, 3, 4, 1024, 1024, 6, 0, 4, 3) + name) + le("I", 0xffffffff)
    record = b"FILE" + le("HHQHHHHIIQHHI", 48, 3, 0, 1, 1, 56, 1, 56 + len(parts), 1024, 0, 3, 0, 0) + le("3H", 1, 0, 0)
    return (boot.ljust(510, b"\0") + b"\x55\xaa").ljust(1024, b"\0") + (record.ljust(56, b"\0") + parts).ljust(1024, b"\0") + b"\0" * 2048


def exfat():
    """Sectors and clusters of 512 bytes; a root with a label, and a file with its two further entries."""
    boot = b"\xeb\x76\x90EXFAT   " + b"\0" * 53 + le("QQIIIIIIHHBBBBB", 0, 16, 2, 1, 4, 4, 3, 0x12345678, 0x100, 0, 9, 0, 1, 0x80, 0)
    entries = b"\x83\6" + "SAMPLE".encode("utf-16-le").ljust(30, b"\0")
    entries += le("BBHHHIII", 0x85, 2, 0x1234, 0x20, 0, 0x585d63c0, 0x585d63c0, 0x585d63c0).ljust(32, b"\0")
    entries += le("BBBBHHQIIQ", 0xc0, 3, 0, 5, 0x4321, 0, 6, 0, 5, 6) + b"\xc1\0" + "a.txt".encode("utf-16-le").ljust(30, b"\0")
    root = entries.ljust(512, b"\0")
    return (boot.ljust(510, b"\0") + b"\x55\xaa").ljust(1024, b"\0") + b"\xf8\xff\xff\xff".ljust(1024, b"\0") + (b"\0" * 512 + root).ljust(512 * 12, b"\0")


def qcow2():
    """Version 3, 1 MiB in clusters of 64 KiB, one extension; the table behind the head and empty."""
    head = b"QFI\xfb" + be("IQIIQIIQQIIQ", 3, 0, 0, 16, 1 << 20, 0, 1, 0x10000, 0x20000, 1, 0, 0) + be("QQQII", 0, 0, 0, 4, 104)
    return (head + be("II", 0x6803f857, 4) + b"abcd\0\0\0\0" + be("II", 0, 0)).ljust(0x10000, b"\0") + be("Q", 1 << 63 | 0x30000)


def vhd():
    """A fixed image of four sectors."""
    data = bytes(range(256)) * 8
    foot = b"conectix" + be("IIQI4sI4sQQHBBI", 2, 0x10000, (1 << 64) - 1, 0, b"tst ", 0x10000, b"Wi2k", len(data), len(data), 1, 4, 1, 2)
    total = ~sum(foot + bytes(range(16))) & 0xffffffff
    return data + (foot + be("I", total) + bytes(range(16))).ljust(512, b"\0")


SAMPLES = {
    "ar": ar, "ber": ber, "bmp": bmp, "cbor": cbor, "cpio": cpio, "der": der, "dns": dns, "elf-notes": elf_notes, "fat": fat,
    "flac": flac, "gpt": gpt, "gzip": gzip_, "ico": ico, "java-class": java_class, "macho": macho, "mbr": mbr, "midi": midi,
    "mp4": mp4, "msgpack": msgpack, "ogg": ogg, "pcapng": pcapng, "png": png, "riff": riff, "sqlite": sqlite, "tar": tar,
    "tiff": tiff, "tls": tls, "utf8": utf8, "wasm": wasm, "wav": wav, "zip": zip_,
    "bson": bson, "dds": dds, "dex": dex, "dtb": dtb, "exfat": exfat, "ext": ext, "git-idx": git_idx, "git-index": git_index,
    "git-pack": git_pack, "arrow": arrow, "glb": glb,
    "icc": icc, "iso9660": iso9660, "jpeg": jpeg, "lnk": lnk, "luks": luks, "lz4": lz4, "matroska": matroska, "mo": mo, "npy": npy,
    "ntfs": ntfs, "openpgp": openpgp, "packets": packets, "pe-imports": pe_imports, "elf-dynamic": elf_dynamic, "psd": psd, "pyc": pyc, "qcow2": qcow2,
    "sevenzip": sevenzip, "sfnt": sfnt, "sqlite-wal": sqlite_wal,
    "squashfs": squashfs, "stl": stl, "terminfo": terminfo, "torrent": torrent, "tzif": tzif, "utmp": utmp, "vhd": vhd, "webp": webp,
    "minidump": minidump, "evtx": evtx, "regf": regf, "bzip2": bzip2, "rdb": rdb, "parquet": parquet, "protobuf": protobuf,
    "hdf5": hdf5, "pdb": pdb, "sshkey": sshkey,
    "woff": woff, "x509": x509, "xz": xz, "zstd": zstd,
}


def main():
    for name, make in SAMPLES.items():
        with open(os.path.join(sys.argv[1], name), "wb") as file:
            file.write(make())


if __name__ == "__main__":
    main()
