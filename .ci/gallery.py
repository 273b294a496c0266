"""The grammars of formats/ on their samples: each is accepted, its canonical text reads as the same grammar, values of the tree
are those that other programs and python3's own modules tell, and where its head says `Closed` a file that is a byte shorter or
longer has no parse.

  gallery.py COMMAND     COMMAND parse GRAMMAR FILE is run, and so are `check` and `fmt`
  gallery.py --missing   prints the programs that are asked below and that are not there

Ends with status 1 where something differs.
"""

import concurrent.futures
import functools
import gettext
import gzip
import hashlib
import io
import os
import re
import shlex
import shutil
import sqlite3
import ssl
import struct
import subprocess
import sys
import tarfile
import tempfile
import uuid
import wave
import zipfile
import zlib
from collections import namedtuple

FOLDER = os.path.join(os.path.dirname(os.path.dirname(os.path.abspath(__file__))), "formats")
sys.path.insert(0, FOLDER)
sys.dont_write_bytecode = True
import samples  # noqa: E402

# A line of a tree: its rule or primitive, the rule above it, the bytes that it touches, and its values by name.
Line = namedtuple("Line", "what above bytes values")


def run(*words):
    return subprocess.run(words, capture_output=True)


def tree(text, data):
    """The lines of a printed tree; raw bytes are taken from the input, since the tree has the first 32 alone."""
    lines, above = [], []
    for words in (line.split() for line in text.splitlines()):
        depth, what = int(words[0]), words[1]
        del above[depth:]
        over = above[-1] if above else ""
        above.append(over if what in ("for", "many") else what)
        if what not in ("for", "many"):
            values = dict(word.split("=") for word in words[4:] if "=" in word)
            first, behind = values.get("start", words[2]), values.get("end", words[3])
            lines.append(Line(what, over, data[int(first):int(behind)], values))
    return lines


def seen(lines, spec):
    """What a tree has at [ABOVE/]RULE.ATTRIBUTE, as numbers, or by a form behind `:`; a `+` leaves out zeros. Without an attribute
    the bytes of RULE, as a text, or as hex."""
    path, _, form = spec.partition(":")
    above, _, what = path.rpartition("/")
    what, _, name = what.partition(".")
    found = [line for line in lines if line.what == what and above in ("", line.above)]
    if not name:
        return [line.bytes.hex() if form == "hex" else line.bytes.decode("latin-1").strip("\0 ") for line in found]
    values = [int(line.values[name.strip("+")]) for line in found if name.strip("+") in line.values]
    return [format(value, form or "d") for value in values if value != 0 or not name.endswith("+")]


# ---- what python3 tells

def wave_says(data):
    with wave.open(io.BytesIO(data)) as file:
        return {"Fmt.rate": [file.getframerate()], "Fmt.channels": [file.getnchannels()], "Fmt.bits": [8 * file.getsampwidth()],
                "Chunk.size": [16, file.getnframes() * file.getnchannels() * file.getsampwidth()]}


def zip_says(data):
    entries = zipfile.ZipFile(io.BytesIO(data)).infolist()
    return {"Entry.plain": [entry.file_size for entry in entries], "Entry.packed": [entry.compress_size for entry in entries],
            "Entry.crc": [entry.CRC for entry in entries], "Entry.offset": [entry.header_offset for entry in entries],
            "Entry/Name": [entry.filename for entry in entries], "Local/Name": [entry.filename for entry in entries]}


def tar_says(data):
    members = tarfile.open(fileobj=io.BytesIO(data)).getmembers()
    return {"Head.size": [one.size for one in members], "Head.mode": [one.mode for one in members],
            "Head.time": [one.mtime for one in members], "Head.user": [one.uid for one in members],
            "Head/Name": [name for one in members for name in (one.name, one.linkname)]}


def gzip_says(data):
    plain = gzip.decompress(data)
    return {"Gzip.crc": [zlib.crc32(plain)], "Gzip.length": [len(plain)], "Head.time": [1709209858],
            "Head/Name": ["hello.txt"]}


def sqlite_says(data):
    with tempfile.TemporaryDirectory() as folder:
        name = os.path.join(folder, "base")
        with open(name, "wb") as file:
            file.write(data)
        base = sqlite3.connect(name)
        one = {what: [base.execute("pragma " + what).fetchone()[0]]
               for what in ("page_size", "page_count", "user_version", "application_id", "schema_version")}
        rows = [row for table in ("sqlite_master", "t") for row, in base.execute("select rowid from " + table)]
        masters = base.execute("select type, name, tbl_name, rootpage, sql from sqlite_master order by rowid").fetchall()
        pairs = base.execute("select x, id from t order by id").fetchall()
        base.close()
    # the rows of the list of tables, those of the table, whose number isn't in the record, and those of the index
    texts = [text for row in masters for text in row if isinstance(text, str)] + 2 * [x for x, _ in pairs]
    numbers = [root for _, _, _, root, _ in masters] + [number for _, number in pairs]
    return {"Head.size": one["page_size"], "Head.pages": one["page_count"], "Head.user": one["user_version"],
            "Head.application": one["application_id"], "Head.schema": one["schema_version"], "Row.row": rows,
            "Value/Text": texts, "Value.int": numbers}


def utf8_says(data):
    return {"Char.code": [ord(char) for char in data.decode()]}


def gpt_says(data):
    kind, own = uuid.UUID("0fc63daf-8483-4772-8e79-3d69d8477de4"), uuid.UUID(bytes_le=bytes(range(16, 32)))
    disk = uuid.UUID(bytes_le=bytes(range(16)))
    used = [kind, own] + [uuid.UUID(int=0)] * 254
    return {"Guid.a": [one.fields[0] for one in [disk, *used, disk]], "Guid.b": [one.fields[1] for one in [disk, *used, disk]],
            "Entry.first": [40] + [0] * 127, "Entry.last": [79] + [0] * 127, "Head.own": [1, 127], "Head.other": [127, 1],
            "Head.tablecrc": [zlib.crc32(data[1024:1024 + 128 * 128])] * 2}


def png_says(data):
    crcs = [zlib.crc32(kind + part) for kind, part in (
        (b"gAMA", data[41:45]), (b"pHYs", data[57:66]), (b"tEXt", data[78:87]), (b"tIME", data[99:106]), (b"IDAT", data[118:149]))]
    return {"Chunk.crc": crcs, "Last.crc": [zlib.crc32(b"IEND")], "Ihdr.width": [3], "Ihdr.height": [2], "Phys.x": [2835],
            "Time.year": [2024], "Time.day": [29], "Text/Keyword": ["Title"], "Gama.gamma": [45455]}


def mo_says(data):
    texts = gettext.GNUTranslations(io.BytesIO(data))
    pairs = sorted(texts._catalog.items())
    return {"Mo.n": [len(pairs)], "Mo/Text": [key for key, _ in pairs] + [text.strip("\n") + ("\n" if "\n" in text else "") for _, text in pairs],
            "Original.length": [len(key) for key, _ in pairs], "Translation.length": [len(text) for _, text in pairs]}


PYTHON = {"mo": mo_says, "wav": wave_says, "zip": zip_says, "tar": tar_says, "gzip": gzip_says, "sqlite": sqlite_says, "utf8": utf8_says,
          "gpt": gpt_says, "png": png_says}

# What the standard says of bytes that stand in the sample, worked out by hand.
HAND = {
    "ar": {"Head.size": [5, 4], "Head.mode": [0o100644, 0o100755], "Head.user": [1000, 1000], "Head/Name": ["a.txt/", "b.txt/"]},
    "ber": {"Element.tag": [16, 2, 4, 4, 4, 2], "Element.size": [1, 2, 3, 1],
            "Element/Content:hex": ["2a", "6865", "6c6c6f", "07"]},
    "bmp": {"Info.width": [3], "Info.height": [-2], "Info.bits": [24], "Bmp.stride": [12], "Rows/Row:hex": ["0000ff" * 3 + "000000"] * 2},
    "cbor": {"Unsigned.int": [23, 255, 1 << 40, 1, 2, 1709209858], "Negative.int": [-256], "Tagged.tag": [1], "Simple.simple": [21],
             "Simple.high": [0x3ff80000], "Map.n": [6], "Array.n": [4],
             "Text/Bytes": ["a", "b", "c", "he", "llo", "d", "e", "f"]},
    "cpio": {"Head.inode": [11, 12, 0], "Head.size": [6, 3, 0], "Head.mode": [0o100644, 0o100600, 0], "Member/Name": ["a.txt", "dir/b.txt"],
             "Member/Data": ["hello\n", "abc"]},
    "der": {"Integer.value": [256, -1, 42], "Element.tag": [16, 2, 2, 6, 12, 0, 2, 5], "Element.size": [228, 2, 1, 9, 200, 3, 1, 0],
            "Number.val": [42, 840, 113549, 1, 1, 11]},
    "dns": {"Dns.id": [0x1234], "Record.type": [1, 15, 16, 28], "Record.ttl": [300, 600, 60, 60], "A.a": [192], "A.d": [7],
            "Mx.preference": [10], "Text/Bytes": ["hello"], "Last.offset": [12, 12], "Aaaa.nethigh": [0x20010000], "Aaaa.hostlow": [1]},
    "elf-dynamic": {"Tag.tag": [1, 5], "Tag.value": [1, 0x500], "Symbol.value": [0, 0x1000], "Symbol.size": [0, 8], "Symbol.type": [0, 2],
                    "Addend.symbol": [1],
                    "Addend.type": [6], "Addend.addend": [-8], "Place.offset": [0x2008], "Place.type": [8]},
    "elf-notes": {"Note.type": [3, 7], "Note.size": [20, 3], "Note/Name": ["GNU", "other"],
                  "Note/Description:hex": [bytes(range(20)).hex(), "616263"]},
    "fat": {"Boot.sector": [512], "Fat.bits": [12], "Boot.entries": [16], "Fat.clusters": [60], "Entry/Name": ["SAMPLE", "HELLO   TXT"],
            "Entry.size": [0, 6], "Small.serial": [0x12345678]},
    "flac": {"Info.rate": [44100], "Info.channels": [2], "Info.bits": [16], "Info.samples": [88200], "Comment/Bytes": ["TITLE=Red"]},
    "ico": {"Entry.width": [16, 8], "Bitmap.height": [16, 8], "Entry.bits": [32, 32], "Entry.offset": [38, 38 + 40 + 1024 + 64]},
    "java-class": {"Class.major": [52], "Constant.tag": [7, 7, 5], "Constant.high": [256], "Member.access": [0x19],
                   "Constant/Text": ["Hi", "java/lang/Object", "big", "J", "ConstantValue", "SourceFile", "Hi.java"]},
    "macho": {"Macho.cpu": [0x1000007], "Command.kind": [0x19, 0x1b, 0x80000028], "Section64.size": [4], "Main.entry": [232],
              "Section64/Name": ["__text", "__TEXT"]},
    "mbr": {"Mbr.disk": [0x12345678], "Partition.type": [0x83, 0x0b, 0, 0], "Partition.first": [2048, 6144, 0, 0],
            "Partition.count": [4096, 8192, 0, 0], "Place.cylinder": [0, 64, 64, 384, 0, 0, 0, 0]},
    "midi": {"Midi.tracks": [2], "Midi.division": [480], "Tempo.micros": [500000], "Running.delta": [240, 0, 96],
             "Event.status": [0xc0, 0x90], "Low.val": [5, 60, 64, 60, 0, 62, 64, 62, 0]},
    "mp4": {"Mvhd.scale": [600], "Mvhd.duration": [1500], "Tkhd.width": [320], "Tkhd.height": [240], "Mdhd.scale": [90000],
            "Hdlr.handler": [0x76696465], "Brand.brand": [0x69736f6d, 0x69736f32], "Visual.width": [320],
            "Duration.delta": [112500], "Offset.offset": [-100], "Chunk.samples": [2], "Size.size": [3, 2], "Place.offset": [777], "Sync.sample": [1],
            "AvcC.profile": [66]},
    "msgpack": {"Int.int": [7, -1, -256, -2 ** 40], "Int.high": [0x80000000], "Int.low": [1], "Float.high": [0x3ff80000],
                "Simple.bool": [0, 1], "Extension.type": [5], "Binary/Bytes": ["xyz"], "Text/Bytes": ["a", "b", "c", "d", "e", "f", "g"]},
    "ogg": {"Page.sequence": [0, 1, 2, 3], "Page.granule": [0, 0, 0, 4096], "Comment/Bytes": ["TITLE=Red"], "List/Vendor": ["by hand"],
            "Vorbis.channels": [2], "Vorbis.rate": [44100],
            "Size.val": [30, 36, 0, 3, 2]},
    "pcapng": {"Interface.link": [101], "Packet.size": [30], "Packet.high": [0x61234], "Option.code": [1], "Option/Bytes": ["hello", ""]},
    "riff": {"Plain.size": [16, 3, 2, 7], "List.size": [26], "List.pad": [0], "Plain.pad": [0, 1, 0, 1]},
    "tiff": {"Field.tag": [256, 257, 258, 259, 262, 273, 278, 279, 282, 256, 257], "Field.count": [1] * 11,
             "Rational.numerator": [300], "Rational.denominator": [1], "ShortValue.value": [4, 1, 8, 1, 1], "LongValue.value": [130, 1, 4, 2, 1]},
    "tls": {"Record.type": [22, 21], "Record.version": [0x301, 0x303], "Host/Bytes": ["example.org"], "Extension.kind": [0, 43],
            "Alert.level": [1]},
    "wasm": {"Section.id": [1, 2, 3, 5, 7, 10, 0], "Section.size": [11, 11, 2, 4, 16, 9, 205], "Name/Bytes": ["env", "log", "add", "memory", "note"],
             "Function.size": [7]},
    "bson": {"Element.type": [16, 2, 3, 18, 8, 10, 5, 1], "Int32.value": [-7], "String/Text": ["red"], "Int64.value": [-1 << 40], "Boolean.value": [1],
             "Binary.subtype": [128], "Double.high": [0x3ff80000], "Element/Name": ["a", "b", "c", "d", "e", "f", "g", "h"]},
    "dds": {"Dds.width": [4], "Dds.height": [4], "Dds.mipMapCount": [1], "Pixels.fourCC": [0x44585431], "Dds/Data:hex": ["00f8000000000000"]},
    "dex": {"StringId.offset": [132, 135, 141], "String.utf16_size": [1, 4, 1], "String/Text": ["A", "LHi;", "V"], "TypeId.descriptor_idx": [1, 2],
            "Item.type": [0, 1, 2, 0x2002, 0x1000], "Item.offset": [0, 112, 124, 132, 144]},
    "dtb": {"Dtb.version": [17], "Range.address": [0x1000], "Range.size": [0x2000], "Property.len": [4, 5], "Property.nameoff": [0, 6],
            "Node/Name": ["", "node@1"], "Property/Value": ["red", "hello"]},
    "exfat": {"Exfat.VolumeLength": [16], "Exfat.root": [2560], "Entry.EntryType": [0x83, 0x85, 0xc0, 0xc1], "Label/Name:hex": ["530041004d0050004c004500"],
              "Stream.DataLength": [6], "Stream.NameLength": [5], "File.SetChecksum": [0x1234]},
    "ext": {"Super.blocks_count": [64], "Super.inodes_count": [16], "Ext.block": [1024], "Group.inode_table": [5], "Group.used_dirs": [2]},
    "git-idx": {"Idx.n": [2], "Offset.offset": [12, 300], "Crc.crc": [0x11223344, 0x55667788], "Idx/Name:hex": ["05" + "01" * 19, "c8" + "02" * 19],
                "Fanout.count": [0] * 5 + [1] * 195 + [2] * 56},
    "git-pack": {"GitPack.objects": [1], "Object.type": [3], "Object.size": [6], "GitPack/Checksum:hex": [hashlib.sha1(samples.git_pack()[:-20]).hexdigest()]},
    "arrow": {"Kind.header_type": [1, 3], "Length.length": [0, 8], "Message/Body": ["", "batch"], "Version.version": [4], "Block.offset": [64],
              "Block.metaDataLength": [56], "Block.bodyLength": [8], "Text/Letters": ["a"], "Nullable.nullable": [1], "Type.type": [2]},
    "git-index": {"Entry.mode": [0o100644, 0o100755], "Entry.size": [6, 700], "Entry/Name": ["a.txt", "dir/b.sh"], "Extension.size": [3],
                  "Entry.mtimenano": [500] * 2},
    "glb": {"Json.chunkLength": [28], "Chunk.chunkLength": [8], "Chunk.chunkType": [0x4e4942], "Chunk/Data:hex": ["0000c03f000000c0"]},
    "icc": {"Icc.year": [2024], "Icc.space": [0x52474220], "Tag.offset": [168, 184, 204], "Tag.size": [13, 20, 14], "Point.value": [0x233],
            "Element/Text": ["free"],
            "Xyz.y": [65536, 65536]},
    "iso9660": {"Primary.blocks": [23], "Path.extent": [20, 21], "Path.parent": [1, 1], "Record.extent": [20, 20, 20, 20, 21, 21, 21, 20, 22],
                "Size.val": [2048] * 8 + [6],
                "Path/Name": ["", "DIR"]},
    "jpeg": {"Frame.width": [8], "Frame.height": [8], "App0.xdensity": [72], "Segment.marker": [0xe0, 0xe1, 0xdb, 0xc0, 0xc4, 0xc4, 0xda],
             "Field.tag": [271, 282, 34665, 33434, 34855],
             "Field/Ascii": ["Maker"], "Rational.numerator": [72, 1], "Rational.denominator": [1, 125], "Short.value": [400]},
    "lnk": {"Lnk.FileSize": [4096], "Lnk.IconIndex": [3], "Item/Bytes": ["abcd"], "Text/String:hex": ["520065006400", "2d007600"],
            "Block.BlockSignature": [0xa0000005]},
    "luks": {"One.payload_offset": [4096], "One.mk_digest_iter": [1000], "Key.active": [0x00ac71f3] + [0xdead] * 7, "Key.iterations": [2000] + [0] * 7,
             "One/Name": ["aes", "xts-plain64", "sha256"]},
    "lz4": {"Content.size": [21], "Block.size": [5, 14], "Block.plain": [1, 0], "Frame.blockcheck": [0]},
    "matroska": {"Element.id": [0x1a45dfa3, 0x4286, 0x42f7, 0x4282, 0x4287, 0x18538067, 0x1549a966, 0x2ad7b1, 0x4d80, 0x1654ae6b, 0xae, 0xd7, 0x83, 0x86,
                 0xe1, 0x9f,
                                0x1f43b675, 0xe7, 0xa3],
                 "Unsigned.value": [1, 1, 4, 1000000, 1, 2, 2, 1000], "Element/Text": ["webm", "by hand", "A_OPUS"], "Block.time": [-10], "Block.track": [1]},
    "npy": {"Short.size": [118], "Npy.major": [1], "Npy/Data:hex": ["0100feff0300"]},
    "ntfs": {"Ntfs.sectors": [7], "Ntfs.size": [1024], "Attribute.type": [0x10, 0x30], "FileName.parent": [5], "FileName.length": [4],
             "FileName/Name:hex": ["24004d0046005400"], "Standard.permissions": [6]},
    "openpgp": {"Packet.tag": [6, 13, 2], "PublicKey.created": [1709209858], "Number.bits": [12, 17, 9], "Body/UserId": ["Red <red@example.org>"],
                "Subpacket.type": [2, 27], "Signature.check": [0xabcd]},
    "packets": {"Packet.size": [42, 71, 84], "Ethernet.type": [0x806, 0x800, 0x8100], "Arp.op": [1], "Ip4.protocol": [17], "Udp.destination": [53],
                "Dns.id": [0x1234],
                "Question.type": [1], "Label/Bytes": ["example", "org"], "Vlan.tag": [5], "Ip6.flow": [0x12345], "Tcp.source": [443], "Tcp.flags": [0x12],
                "Tcp/Raw": ["hi"], "Address6.hostlow": [1, 2], "Address4.d": [1, 2]},
    "pe-imports": {"Import/Text": ["red.dll"], "HintName/Text": ["paint"], "HintName.hint": [3], "Thunk.ordinal": [0, 1], "Thunk.value": [0x1048, 7],
                   "Exports/Text": ["own.dll"], "ExportName/Text": ["give"], "Ordinal.ordinal": [0], "Resource.id": [10], "Leaf.size": [3],
                   "Leaf/Data": ["abc"]},
    "psd": {"Psd.width": [4], "Psd.height": [2], "Psd.channels": [3], "Resource.id": [1005], "Resource/Name": ["abc"], "Resource.size": [16],
            "Image.compression": [0]},
    "pyc": {"Pyc.magic": [3495], "Int.int": [1, -2, 3], "Digit.digit": [0, 0, 1024], "Float.high": [0x3ff80000], "Pyc.mtime": [1709209858]},
    "qcow2": {"Qcow2.size": [1 << 20], "Qcow2.cluster_bits": [16], "More.refcount_order": [4], "Extension.length": [4], "Cluster.offset": [0x30000],
              "Cluster.copied": [1]},
    "sevenzip": {"SevenZip.offset": [6], "SevenZip.size": [2], "Header.id": [1], "SevenZip/Packed": ["packed"]},
    "sfnt": {"Entry.tag": [0x68656164, 0x6d617870, 0x6e616d65], "Entry.length": [54, 6, 24], "Head.unitsPerEm": [1000], "Head.yMin": [-200],
             "Maxp.numGlyphs": [7],
             "Record.nameID": [1], "Name/Text:hex": ["005200650064"]},
    "sqlite-wal": {"Wal.page": [512], "Frame.number": [1, 2], "Frame.size": [0, 2], "Wal.salt2": [22]},
    "squashfs": {"Squashfs.block_size": [131072], "Squashfs.bytes_used": [143], "Block.size": [32, 3], "Squashfs.mkfs_time": [1709209858]},
    "stl": {"Stl.count": [2], "Triangle.attributes": [0, 5], "Point.x": [0, 0, 0x3f800000, 0] + [0] + [0x40000000] * 3},
    "terminfo": {"Flag.flag": [1, 0, 1], "Number.val": [80, -1], "Offset.at": [0, 3, 0, 0, 3], "Terminfo/Names": ["red|a red one"], "Extended.size": [9]},
    "torrent": {"Integer.int": [1709209858, 20, 16384, -7], "Key/String": ["8:announce", "13:creation date", "4:info", "6:length", "4:name",
                "12:piece length", "6:pieces", "3:neg"],
                "String.size": [8, 18, 13, 4, 6, 4, 5, 12, 6, 20, 3]},
    "tzif": {"Time32.at": [-1693706400, -1680483600], "Time64.at": [-2422054408, -1693706400, -1680483600], "Type.type": [1, 0, 0, 1, 0],
             "Info.utoff": [3600, 7200] * 2, "Info.isdst": [0, 1] * 2, "Second/Rule": ["CET-1CEST"]},
    "utmp": {"Record.type": [2, 7, 8], "Record.pid": [0, 4242, 4242], "Record.sec": [1709209858, 1709209860, 1709209870], "Record/User": ["reboot", "red", ""],
             "Record.addr0": [0x070200c0] * 3},
    "vhd": {"Footer.type": [2], "Footer.current": [2048], "Footer.sectors": [1], "Footer.heads": [4]},
    "webp": {"Lossless.width": [3], "Lossless.height": [2], "Lossless.alpha": [1], "Extended.width": [3], "Extended.height": [2], "Chunk.size": [10, 7, 3],
             "Chunk.pad": [0, 1, 1]},
    "woff": {"Entry.tag": [0x68656164, 0x6d617870, 0x6e616d65], "Entry.origLength": [54, 6, 24], "Woff.totalSfntSize": [148]},
    "minidump": {"Minidump.NumberOfStreams": [3], "Stream.StreamType": [3, 7, 5], "Thread.ThreadId": [77], "System.BuildNumber": [19041],
                 "Range.Start": [0x1000],
                 "System.NumberOfProcessors": [8]},
    "evtx": {"Evtx.chunks": [1], "Evtx.next": [2], "Record.size": [32], "Record.id": [1], "Record/Event:hex": ["0f010100"], "Chunk.free": [544]},
    "regf": {"Regf.root": [32], "Key.values": [1], "Value.data": [42], "Value.type": [4], "Key/Name": ["ROOT"], "Value/Name": ["count"], "Cell.used": [1,
             1, 1, 0]},
    "bzip2": {"Bzip2.level": [1], "First.crc": [1730606897], "First/Data:hex": [samples.bzip2()[14:].hex()]},
    "rdb": {"Database.number": [2], "Sizes.keys": [4], "Sizes.expiring": [1], "Pair.type": [0, 0, 1, 4], "Text.int": [-300], "Texts.n": [2],
            "Expiry.low": [1709209858000 & 0xffffffff],
            "Text/Bytes": ["redis-ver", "7.0.0", "a", "hello", "n", "l", "x", "yz", "h", "f", "v"]},
    "parquet": {"Parquet.size": [37], "Field.type": [5, 9, 8, 5, 5, 5, 8, 6, 9, 8], "Value.int": [1, 1, 1, 0, 2], "Binary/Bytes": ["schema", "a",
                "by hand"], "List.n": [2, 0],
                "Parquet/Data": ["data"]},
    "hdf5": {"Hdf5.version": [0], "Super.leafk": [4], "Super.internalk": [16], "End.end_of_file": [800], "Root.header": [96], "Root.cached": [1],
             "Free.free": [0xffffffff]},
    "pdb": {"Pdb.NumBlocks": [5], "Pdb.BlockMapAddr": [3], "Place.block": [4], "Directory.NumStreams": [2], "Block/Bytes": ["\xe0", "data", "\4",
            "\2\0\0\0\4\0\0\0\0\0\0\0\2"]},
    "sshkey": {"Kind.length": [11], "Text.length": [32], "Text/Bytes:hex": [bytes(range(32)).hex()]},
    "protobuf": {"Field.number": [1, 2, 3, 1, 4, 5], "Value.value": [300, 150, 7], "Value.high": [0x3ff80000], "Content/Bytes": ["testing"]},
    "x509": {"Version.version": [3], "SerialNumber/Bytes:hex": ["1234"], "Time/Text": ["240229123058Z", "20540229123058Z"], "TypeAndValue/Text": ["blue",
             "red"],
             "AltName/Text": ["example.org"], "Body.id": [0x551d11, 0x551d0f, 0x551d13], "Critical.critical": [0, 255, 255], "KeyUsage.bits": [0xa0],
             "PathLength.pathlen": [3]},
    "xz": {"Xz.n": [1], "Record.uncompressed": [120], "Filter.id": [0x21], "Filter.size": [1]},
    "zstd": {"AnyBlock.size": [5, 10], "AnyBlock.type": [0, 1], "Content.size": [15], "Frame.single": [1]},
}



def hexed(text):
    return str(int(text, 16))


def field(tag):
    """The value of a field of a TIFF file that stands in the field itself, of 16 bits."""
    return lambda lines: [line.values["short"] for line in lines if line.what == "Field" and line.values["tag"] == tag][:1]


WORDS = {"64": "1", "x86_64": str(0x1000007), "executable": "2", "stereo": "2"}

# What other programs say: the format, the command on the file {}, what to find in its answer, where that stands in the tree, and
# how the program's words are written there.
TOOLS = [
    ("ar", "ar tv {}", r"^\S+ (\d+)/(\d+) +(\d+) ", ["Head.user", "Head.group", "Head.size"], str),
    ("ber", "openssl asn1parse -inform DER -in {}", r"l= *(\d+) prim: [IO]", ["Element.size"], str),
    ("bmp", "file -b {}", r"(\d+) x (-?\d+) x (\d+), image size (\d+)", ["Info.width", "Info.height", "Info.bits", "Info.image"], str),
    ("cpio", "cpio -itvn --quiet -F {}", r"^\S+ +\d+ +\d+ +\d+ +(\d+) .* (\S+)$", ["Member.size", "Member/Name"], str),
    ("der", "openssl asn1parse -inform DER -in {}", r"l= *(\d+) (?:cons|prim)", ["Element.size"], str),
    ("der", "openssl asn1parse -inform DER -in {}", r"INTEGER +:(-?\w+)", ["Integer.value"], hexed),
    ("dns", "tcpdump -ttnr {}", r" (\d+)\S* (\d+)/(\d+)/(\d+) A (\d+)\.", ["Dns.id", "Dns.answers", "Dns.authorities", "Dns.additional", "A.a"], str),
    ("dns", "tcpdump -ttnr {}", r" MX \S+ (\d+), TXT \"(\w+)\"", ["Mx.preference", "Text/Bytes"], str),
    ("elf-dynamic", "readelf -sDW --use-dynamic --wide -rS {}", r"^\s+\[ *\d+\]\s+\S*\s*DYNAMIC +\w+ (\w+) (\w+)",
     [lambda lines: [seen(lines, "Section.offset:06x")[3]], lambda lines: [seen(lines, "Section.size:06x")[3]]], str),
    ("elf-dynamic", "readelf -sW {}", r"^ +\d+: (\w{16}) +(\d+) ", ["Symbol.value:016x", "Symbol.size"], str),
    ("elf-notes", "readelf -nW {}", r"^  (GNU|other) +0x(\w+)", ["Note/Name", "Note.size:08x"], str),
    ("elf-notes", "readelf -nW {}", r"Build ID: (\w{40})", [lambda lines: seen(lines, "Note/Description:hex")[:1]], str),
    ("fat", "minfo -i {} ::", r"(?s)sector size: (\d+) .*cluster size: (\d+) .*slots: (\d+).*small size: (\d+)",
     ["Boot.sector", "Boot.cluster", "Boot.entries", "Boot.total16"], str),
    ("fat", "minfo -i {} ::", r"serial number: (\w+)", ["Small.serial:08x"], str),
    ("flac", "metaflac --list {}", r"(?s)sample_rate: (\d+) Hz\s+channels: (\d+)\s+bits-per-sample: (\d+)\s+total samples: (\d+)",
     ["Info.rate", "Info.channels", "Info.bits", "Info.samples"], str),
    ("flac", "metaflac --list {}", r"comment\[\d+\]: (\S+)", ["Comment/Bytes"], str),
    ("gpt", "sgdisk -p {}", r"^ +\d+ +(\d+) +(\d+) ", ["Entry.first+", "Entry.last+"], str),
    ("gpt", "sgdisk -p {}", r"holds up to (\d+) .*", [lambda lines: seen(lines, "Head.count")[:1]], str),
    ("gzip", "gzip -lv {}", r"^defla (\w{8}) \w+ +\d+ [\d:]+ +\d+ +(\d+) ", ["Gzip.crc:08x", "Gzip.length"], str),
    ("gzip", "file -b {}", r'was "(\S+)"', ["Head/Name"], str),
    ("ico", "icotool -l {}", r"--width=(\d+) --height=(\d+) --bit-depth=(\d+)", ["Entry.width", "Entry.height", "Entry.bits"], str),
    ("java-class", "file -b {}", r"version (\d+)\.(\d+)", ["Class.major", "Class.minor"], str),
    ("java-class", "javap -v {}", r"major version: (\d+)", ["Class.major"], str),
    ("java-class", "javap -v {}", r"= Utf8 +(\S+)", ["Constant/Text"], str),
    ("macho", "file -b {}", r"Mach-O (\d+)-bit (\w+) (\w+)", ["Macho.wide", "Macho.cpu", "Macho.type"], WORDS.get),
    ("mbr", "sfdisk -d {}", r"start= *(\d+), size= *(\d+), type=(\w+)", ["Partition.first+", "Partition.count+", "Partition.type+:x"], str),
    ("midi", "file -b {}", r"\(format (\d)\) using (\d+) tracks at 1/(\d+)", ["Midi.format", "Midi.tracks", "Midi.division"], str),
    ("mp4", "exiftool -n {}", r"(?s)Image Width +: (\d+)\nImage Height +: (\d+)", ["Tkhd.width", "Tkhd.height"], str),
    ("mp4", "exiftool -n {}", r"(?s)\nTime Scale +: (\d+).*Track ID +: (\d+).*Media Time Scale +: (\d+)",
     ["Mvhd.scale", "Tkhd.track", "Mdhd.scale"], str),
    ("mp4", "exiftool -n {}",
     r"(?s)Compressor ID +: (\w+)\nSource Image Width +: (\d+)\nSource Image Height +: (\d+)\nX Resolution +: (\d+)\n.*Bit Depth +: (\d+)",
     [lambda lines: ["avc1"], "Visual.width", "Visual.height", lambda lines: [str(int(value) >> 16) for value in seen(lines, "Visual.horizontal")],
     "Visual.depth"], str),
    ("ogg", "file -b {}", r"Vorbis audio, (\w+), (\d+) Hz, ~(\d+)", ["Vorbis.channels", "Vorbis.rate", "Vorbis.nominal"],
     lambda text: WORDS.get(text, text)),
    ("pcapng", "tcpdump -ttnvr {}", r"proto UDP \(17\), length (\d+)", ["Packet.size"], str),
    ("pcapng", "capinfos -M {}", r"(?s)Number of packets: +(\d+).*Data size: +(\d+).*Capture comment: +(\w+)",
     [lambda lines: [str(len(seen(lines, "Packet.size")))], "Packet.length", lambda lines: seen(lines, "Option/Bytes")[:1]], str),
    ("png", "pngcheck -v {}", r"chunk (?!IHDR|IEND)\w+ at offset \w+, length (\d+)", ["Chunk.size"], str),
    ("png", "pngcheck -v {}", r"(\d+) x (\d+) image", ["Ihdr.width", "Ihdr.height"], str),
    ("png", "pngcheck -v {}", r"(\d+)x(\d+) pixels/meter", ["Phys.x", "Phys.y"], str),
    ("riff", "soxi {}", r"= (\d+) samples", [lambda lines: seen(lines, "Plain.size")[3:]], str),
    ("sqlite", "sqlite3 {} 'pragma page_size; pragma page_count; pragma user_version; select max(id) from t'",
     r"(?s)^(\d+)\n(\d+)\n(\d+)\n(\d+)", ["Head.size", "Head.pages", "Head.user", lambda lines: seen(lines, "Row.row")[-1:]], str),
    ("sqlite", "file -b {}", r"application id (\d+), user version (\d+)", ["Head.application", "Head.user"], str),
    ("tar", "tar --numeric-owner -tvf {}", r"^\S+ (\d+)/(\d+) +(\d+) \S+ \S+ (\S+)$",
     ["Head.user", "Head.group", "Head.size", lambda lines: seen(lines, "Head/Name")[::2]], str),
    ("tiff", "file -b {}", r"direntries=(\d+), height=(\d+), bps=(\d+).*width=(\d+)", ["Tiff.n", field("257"), field("258"), field("256")], str),
    ("tls", "tshark -r {} -T fields -e tls.handshake.extensions_server_name -e tls.handshake.extensions_length -e tls.handshake.length",
     r"^(\S+)\t(\d+)\t(\d+)", ["Host/Bytes", "Extensions.size", "Handshake.size"], str),
    ("wasm", "wasm-objdump -h {}", r"size=0x(\w+)\)", ["Section.size"], hexed),
    ("wasm", "wasm-objdump -x {}", r'func\[\d+\] size=(\d+)', ["Function.size"], str),
    ("wasm", "wasm-objdump -x {}", r'-> "(\w+)"', [lambda lines: seen(lines, "Name/Bytes")[2:4]], str),
    ("dds", "identify -format '%w %h' {}", r"(\d+) (\d+)", ["Dds.width", "Dds.height"], str),
    ("dex", "dexdump -f {}", r"(?s)file_size +: (\d+).*string_ids_size +: (\d+).*type_ids_size +: (\d+)",
     ["Dex.file_size", "Dex.string_ids_size", "Dex.type_ids_size"], str),
    ("dtb", "dtc -q -I dtb -O dts {}", r"/memreserve/\s+0x(\w{16}) 0x(\w{16});", ["Range.address:016x", "Range.size:016x"], str),
    ("exfat", "dump.exfat {}", r"(?s)Length\(sectors\):\s+(\d+)\n.*Cluster Count:\s+(\d+)\n.*Volume Serial:\s+0x(\w+)",
     ["Exfat.VolumeLength", "Exfat.ClusterCount", "Exfat.VolumeSerialNumber:x"], str),
    ("ext", "dumpe2fs -h {}", r"(?s)Inode count: +(\d+)\nBlock count: +(\d+)\n.*Free blocks: +(\d+)",
     ["Super.inodes_count", "Super.blocks_count", "Super.free_blocks_count"], str),
    ("git-pack", "sh -c 'git index-pack -o {}.idx {}'", r"^(\w{40})$", ["GitPack/Checksum:hex"], str),
    ("git-idx", "sh -c 'git show-index <{}'", r"^(\d+) (\w{40}) \((\w{8})\)", ["Offset.offset", "Idx/Name:hex", "Crc.crc:08x"], str),
    ("git-index", "file -b {}", r"version (\d+), (\d+) entries", ["Index.version", "Index.n"], str),
    ("glb", "file -b {}", r"version (\d), length (\d+)", ["Glb.version", "Glb.length"], str),
    ("icc", "exiftool -n {}", r"(?s)Profile Copyright +: (\w+)\nMedia White Point +: \S+ (\d+)",
     ["Element/Text", lambda lines: [str(int(value) >> 16) for value in seen(lines, "Xyz.y")[:1]]], str),
    ("iso9660", "isoinfo -l -i {}", r"^[d-]\S+ +0 +0 +0 +(\d+) .* \[ +(\d+) 0\w\]",
     [lambda lines: seen(lines, "Size.val")[1:4] + seen(lines, "Size.val")[6:], lambda lines: seen(lines, "Record.extent")[2:5] + seen(lines,
     "Record.extent")[6:]], str),
    ("jpeg", "exiftool -n {}", r"(?s)X Resolution +: (\d+)\n.*Exposure Time +: (\S+)\n.*ISO +: (\d+)\n.*Image Width +: (\d+)",
     ["App0.xdensity", lambda lines: [str(int(seen(lines, "Rational.numerator")[1]) / int(seen(lines, "Rational.denominator")[1]))], "Short.value",
     "Frame.width"], str),
    ("jpeg", "file -b {}", r"manufacturer=(\w+)", ["Field/Ascii"], str),
    ("lnk", "exiftool -n {}", r"(?s)Target File Size +: (\d+)\n.*Icon Index +: (\d+)", ["Lnk.FileSize", "Lnk.IconIndex"], str),
    ("luks", "file -b {}", r"ver (\d) .* at 0x(\w+) data, (\d+) key bytes.* (\d+) MK", ["One.version", "One.payload_offset:x", "One.key_bytes",
     "One.mk_digest_iter"], str),
    ("lz4", "lz4 --list {}", r"LZ4Frame +\S+ +\S+ +(\d+)\.00", ["Content.size"], str),
    ("matroska", "mkvinfo {}", r"Timestamp scale: (\d+)", [lambda lines: seen(lines, "Unsigned.value")[3:4]], str),
    ("matroska", "mkvinfo {}", r"(?:Document type|Multiplexing application|Codec ID): (.*)", ["Element/Text"], str),
    ("mo", "file -b {}", r"(\d+) messages", ["Mo.n"], str),
    ("npy", "file -b {}", r"version (\d)\.(\d), header length (\d+)", ["Npy.major", "Npy.minor", "Short.size"], str),
    ("ntfs", "file -b {}", r"sectors (\d+), \$MFT start cluster (\d+), \$MFTMirror start cluster (\d+)", ["Ntfs.sectors", "Ntfs.mft", "Ntfs.mirror"], str),
    ("openpgp", "file -b {}", r"RSA \(Encrypt or Sign, (\d+) bits", [lambda lines: seen(lines, "Number.bits")[:1]], str),
    ("ogg", "exiftool -n {}", r"(?s)Vendor +: ([\w ]+)\nTitle +: (\w+)", ["List/Vendor", lambda lines: [text[6:] for text in seen(lines,
     "Comment/Bytes")]], str),
    ("packets", "tshark -r {} -T fields -e frame.len -e eth.type -e ip.proto -e udp.dstport", r"^(\d+)\t\S+\t\d*\t\d*$", ["Packet.size"], str),
    ("packets", "tcpdump -ttnr {}", r"\.53: (\d+)\+ A\? (\w+)\.(\w+)\.", ["Dns.id", lambda lines: seen(lines, "Label/Bytes")[:1], lambda lines: seen(lines,
     "Label/Bytes")[1:]], str),
    ("packets", "tcpdump -ttnvr {}", r"flowlabel 0x(\w+), hlim (\d+)", ["Ip6.flow:x", "Ip6.hops"], str),
    ("pe-imports", "objdump -p {}", r"DLL Name: (\S+)[\s\S]*?\t\w+\t +(\d+)  ?(\w+)\n", ["Import/Text", "HintName.hint", "HintName/Text"], str),
    ("pe-imports", "objdump -p {}", r"\[ +(\d+)\] (?!Exp)(?:\+base\[ *\d+\] +\w+ )?(\w+)$", ["Ordinal.ordinal", "ExportName/Text"], str),
    ("psd", "exiftool -n {}", r"(?s)Num Channels +: (\d+)\nImage Height +: (\d+)\nImage Width +: (\d+)", ["Psd.channels", "Psd.height", "Psd.width"], str),
    ("pyc", "file -b {}", r"size: (\d+) bytes", ["Pyc.size"], str),
    ("qcow2", "qemu-img info {}", r"(?s)\((\d+) bytes\).*cluster_size: (\d+)",
     ["Qcow2.size", lambda lines: [str(1 << int(seen(lines, "Qcow2.cluster_bits")[0]))]], str),
    ("sevenzip", "7z l -slt {}", r"Physical Size = (\d+)", [lambda lines: [str(32 + sum(int(seen(lines, what)[0]) for what in ("SevenZip.offset",
     "SevenZip.size")))]], str),
    ("sfnt", "file -b {}", r"(\d+) tables", ["Sfnt.numTables"], str),
    ("squashfs", "unsquashfs -s {}", r"(?s)size (\d+) bytes.*Block size (\d+)", ["Squashfs.bytes_used", "Squashfs.block_size"], str),
    ("terminfo", "file -b {}", r'"(\w+)"', [lambda lines: [seen(lines, "Terminfo/Names")[0].split("|")[0]]], str),
    ("tzif", "file -b {}", r"(\d+) transition times, (\d+) local time types", [lambda lines: seen(lines, "Head.timecnt")[:1], lambda lines: seen(lines,
     "Head.typecnt")[:1]], str),
    ("utmp", "utmpdump {}", r"^\[(\d)\] \[0*(\d+)\] \[\S+ +\] \[(\w*) *\]", ["Record.type", "Record.pid", "Record/User"], str),
    ("vhd", "qemu-img info -f vpc {}", r"\((\d+) bytes\)", ["Footer.current"], str),
    ("webp", "webpinfo {}", r"(?s)Canvas size (\d+) x (\d+).*Width: (\d+)\s+Height: (\d+)", ["Extended.width", "Extended.height", "Lossless.width",
     "Lossless.height"], str),
    ("woff", "file -b {}", r"length (\d+), version (\d)\.(\d)", ["Woff.length", "Woff.majorVersion", "Woff.minorVersion"], str),
    ("pdb", "file -b {}", r"(\d+)\*(\d+) bytes", ["Pdb.BlockSize", "Pdb.NumBlocks"], str),
    ("sshkey", "bash -c 'ssh-keygen -lf - <<<\"ssh-ed25519 $(base64 -w0 {})\"'", r"^(\d+) SHA256", [lambda lines: [str(8 * int(seen(lines,
     "Text.length")[0]))]], str),
    ("minidump", "file -b {}", r"(\d+) streams", ["Minidump.NumberOfStreams"], str),
    ("evtx", "evtxinfo {}", r"Number of records\s+: (\d+)", [lambda lines: [str(len(seen(lines, "Record.id")))]], str),
    ("regf", "regfinfo {}", r"Version:\s+(\d)\.(\d)", ["Regf.major", "Regf.minor"], str),
    ("bzip2", "file -b {}", r"block size = (\d)00k", ["Bzip2.level"], str),
    ("rdb", "redis-check-rdb {}", r"(\d+) keys read\n\[info\] (\d+) expires", ["Sizes.keys", "Sizes.expiring"], str),
    ("protobuf", "sh -c 'protoc --decode_raw <{}'", r"^ *(\d): (\d+)$", [lambda lines: ["1", "1"], lambda lines: seen(lines, "Value.value")[:2]], str),
    ("x509", "openssl x509 -inform DER -noout -serial -issuer -subject -in {}", r"(?s)serial=(\d+)\nissuer=CN = (\w+)\nsubject=CN = (\w+)",
     ["SerialNumber/Bytes:hex", lambda lines: seen(lines, "TypeAndValue/Text")[:1], lambda lines: seen(lines, "TypeAndValue/Text")[1:]], str),
    ("x509", "openssl x509 -inform DER -noout -ext subjectAltName -in {}", r"DNS:(\S+)", ["AltName/Text"], str),
    ("xz", "xz --list --robot {}", r"^file\t\d\t(\d)\t(\d+)\t(\d+)", ["Xz.n", lambda lines: [str(lines[0].values["end"])], "Record.uncompressed"], str),
    ("zstd", "zstd -lv {}", r"(?s)Window Size: (\d+) B.*Decompressed Size: (\d+) B", ["Content.size", "Content.size"], str),
    ("wav", "soxi {}", r"(?s)Channels +: (\d+)\nSample Rate +: (\d+)\nPrecision +: (\d+)-bit", ["Fmt.channels", "Fmt.rate", "Fmt.bits"], str),
    ("zip", "unzip -v {}", r"^ +(\d+) +\S+ +(\d+) +\d+% \S+ \S+ (\w{8})  (\S+)$",
     ["Entry.plain", "Entry.packed", "Entry.crc:08x", "Entry/Name"], str),
]


def packet(data, protocol, head):
    """A capture of one packet of raw IP, for programs that read messages out of captures."""
    ip = struct.pack(">BBHHHBBHII", 0x45, 0, 20 + len(head) + len(data), 0, 0, 64, protocol, 0, 0x0a000001, 0x0a000002)
    whole = ip + head + data
    return struct.pack("<IHHiIII", 0xa1b2c3d4, 2, 4, 0, 0, 65535, 101) + struct.pack("<IIII", 0, 0, len(whole), len(whole)) + whole


# A program may want the sample in another wrapping, or under a name with an ending.
WRAPS = {
    "dns": lambda data: packet(data, 17, struct.pack(">HHHH", 53, 1234, 8 + len(data), 0)),
    "tls": lambda data: packet(data, 6, struct.pack(">HHIIHHHH", 1234, 443, 1, 1, 0x5018, 8192, 0, 0)),
}
# The last box of a film may go up to the end, without a size.
OTHERS = {"mp4": lambda data: data[:-13] + bytes(4) + data[-9:]}


# ---- other files that a grammar reads: what they are, their bytes, and values of their trees, worked out by hand

def old_tar():
    """A head of the seventh edition: no `ustar`, numbers with spaces before them; and nothing behind the member."""
    head = b"a".ljust(100, b"\0") + b"   644 \0" + b"     0 \0" * 2 + b"          6 " + b" 4574035602 " + b"  1234\0 " + b"\0" * 356
    return head + b"hello\n".ljust(512, b"\0")


def large_tar():
    file = io.BytesIO()
    with tarfile.open(fileobj=file, mode="w", format=tarfile.GNU_FORMAT) as out:
        info = tarfile.TarInfo("a")
        info.uid, info.mtime = 1 << 30, -5
        out.addfile(info)
    return file.getvalue()


def old_cpio(order):
    def member(name, data):
        head = struct.pack(order + "13H", 0o70707, 1, 2, 0o100644, 3, 4, 1, 0, 0x65e0, 0x7382, len(name) + 1, 0, len(data))
        return head + name + b"\0" * (1 + (len(name) + 1) % 2) + data + b"\0" * (len(data) % 2)

    return member(b"a.txt", b"hello") + member(b"TRAILER!!!", b"")


def octal_cpio():
    def member(name, data):
        return b"070707" + b"%06o" * 7 % (1, 2, 0o100644, 3, 4, 1, 0) + b"%011o%06o%011o" % (5, len(name) + 1, len(data)) + name + b"\0" + data

    return member(b"a.txt", b"hello") + member(b"TRAILER!!!", b"")


def wide_zip():
    """An entry whose three numbers stand in the field of ZIP64, and the records of ZIP64 behind the directory."""
    name, size = b"a", 3
    local = struct.pack("<4s5H3I2H", b"PK\3\4", 45, 0, 0, 0, 0, 0, size, size, 1, 0) + name + b"abc"
    extra = struct.pack("<2H3Q", 1, 24, size, size, 0)
    entry = struct.pack("<4s6H3I5H2I", b"PK\1\2", 45, 45, 0, 0, 0, 0, 0, *[0xffffffff] * 2, 1, len(extra), 0, 0, 0, 0, 0xffffffff) + name + extra
    end = struct.pack("<4sQ2H2I4Q", b"PK\6\6", 44, 45, 45, 0, 0, 1, 1, len(entry), len(local))
    locator = struct.pack("<4sIQI", b"PK\6\7", 0, len(local) + len(entry), 1)
    return local + entry + end + locator + struct.pack("<4s4H2IH", b"PK\5\6", *[0xffff] * 4, *[0xffffffff] * 2, 0)


def sound(order, kind, size, data_size, first=b""):
    fmt = struct.pack(order + "4sIHHIIHH", b"fmt ", 16, 1, 1, 8000, 16000, 2, 16)
    return kind + struct.pack(order + "I", size) + b"WAVE" + first + fmt + b"data" + struct.pack(order + "I", data_size) + b"abcd"


def old_pyc():
    """A module of Python 3.8 that returns None: its code object has other parts than a newer one."""
    code = b"\xe3" + struct.pack("<6I", 0, 0, 0, 0, 1, 64) + b"s\4\0\0\0d\0S\0" + b")\1N" + b")\0" * 4 + b"z\4a.py" + b"z\x08<module>"
    return struct.pack("<HHIII", 3413, 0xa0d, 0, 0, 9) + code + struct.pack("<I", 1) + b"s\0\0\0\0"


def little_capture():
    """One packet of raw IP in little order, whose times are in nanoseconds: UDP with two bytes of data."""
    packet = bytes.fromhex("4500001e00004000401166cc0a0000010a00000203e807d0000a0000") + b"hi"
    return struct.pack("<IHHiIII4I", 0xa1b23c4d, 2, 4, 0, 0, 65535, 101, 5, 999999999, len(packet), len(packet)) + packet


def small_picture():
    """A picture stands behind the directories of EXIF, as cameras have it."""
    return b"\xff\xd8" + samples.jpeg_segment(0xe1, b"Exif\0\0" + samples.exif() + b"\xff\xd8\xff\xd9") + samples.jpeg()[2:]


def bright_png():
    """Numbers of BT.2020's colours, 1,000 candela and less, as the standard's examples have them."""
    light = struct.pack(">8H2I", 35400, 14600, 8500, 39850, 6550, 2300, 15635, 16450, 10000000, 1)
    chunks = [(b"bKGD", struct.pack(">3H", 1, 2, 3)), (b"tRNS", struct.pack(">3H", 1, 2, 3)), (b"mDCV", light),
              (b"cLLI", struct.pack(">2I", 4000000, 1000000)), (b"eXIf", samples.exif())]
    whole = samples.png()
    return whole[:33] + b"".join(samples.png_chunk(*chunk) for chunk in chunks) + whole[33:]


def thin_pack():
    """An object of 300 bytes that is told by its difference to one of another pack: 300 is 12 and 18 times 16."""
    data = b"PACK" + struct.pack(">II", 2, 1) + bytes([0x80 | 7 << 4 | 12, 18]) + b"\5" * 20 + zlib.compress(b"red")
    return data + hashlib.sha1(data).digest()


WIDE = b"ds64" + struct.pack("<IQQQI", 28, 84, 4, 2, 0)
# by wat2wasm, out of a text: two functions, globals of -5, 2^63 - 1 and 1.5, a start, a table of both functions, two data, names
WASM = bytes.fromhex(
    "0061736d01000000010a0260027f7f017f60000003030200010404017000040504010101030620037f01417b0b7e0042ffffffffffffffffff000b7c"
    "0044000000000000f83f0b0707010361646400000801010908010041010b0200010a10020b02017e017d200020016a0b02000b0b14020041100b0568"
    "656c6c6f010770617373697665001d046e616d65010902000361646401017302050200000100070401000167")
VARIANTS = [
    ("ar", "with a zero byte for padding", lambda: samples.ar().replace(b"hello\n", b"hello\0"), {"Head.size": [5, 4], "Member/Data": ["hello", "abcd"]}),
    ("ar", "thin", lambda: b"!<thin>\n" + samples.ar().replace(b"hello\n", b"").replace(b"abcd", b"")[8:], {"Head.size": [5, 4]}),
    ("tar", "without `ustar` and end", old_tar, {"Head.mode": [0o644], "Head.size": [6], "Head.ustar": [0], "Member/Data": ["hello\n"]}),
    ("tar", "with numbers in base 256", large_tar, {"Head.user": [1 << 30], "Head.time": [-5]}),
    ("cpio", "old, little order", lambda: old_cpio("<"), {"Old.size": [5], "OldHead.time": [0x65e07382] * 2, "Old/Name": ["a.txt"], "Old/Data": ["hello"]}),
    ("cpio", "old, big order", lambda: old_cpio(">"), {"Old.size": [5], "OldHead.mode": [0o100644] * 2, "Old/Data": ["hello"]}),
    ("cpio", "in octal digits", octal_cpio, {"OctalHead.mode": [0o100644] * 2, "OctalMember/Name": ["a.txt"], "OctalMember/Data": ["hello"]}),
    ("zip", "behind a program", lambda: b"#!/bin/sh\n" + samples.zip_(), {"Zip.shift": [10], "Data/Bytes:hex": [b"hello\n".hex(),
     zlib.compress(b"hello " * 50, 6)[2:-4].hex()]}),
    ("zip", "with bytes behind", lambda: samples.zip_() + b"behind", {"Zip.shift": [0], "Entry.plain": [6, 300]}),
    ("zip", "with numbers of 64 bits", wide_zip, {"Entry.plain": [3], "Entry.packed": [3], "Entry.offset": [0], "Zip/Data": ["abc"]}),
    ("mbr", "of a whole disk", lambda: samples.mbr() + bytes(2048), {"Partition.first": [2048, 6144, 0, 0]}),
    ("cbor", "of 2^63 and more", lambda: b"\x82\x1b" + b"\xff" * 8 + b"\x3b\x80" + b"\0" * 7,
     {"Unsigned.high": [0xffffffff], "Unsigned.low": [0xffffffff], "Negative.high": [0x80000000]}),
    ("pyc", "of Python 3.8", old_pyc, {"Counts.argcount": [0], "Locals.nlocals": [0], "Code.stacksize": [1], "More.firstlineno": [1],
                                       "Short/Text": ["a.py", "<module>"]}),
    ("packets", "in little order", little_capture, {"Packet.fraction": [999999999], "Udp.source": [1000], "Ip4.ttl": [64], "Address4.d": [1, 2]}),
    ("tiff", "in little order, with EXIF", samples.exif, {"Field.tag": [271, 282, 34665, 33434, 34855], "Field/Ascii": ["Maker"],
     "Rational.denominator": [1, 125],
                                                         "ShortValue.value": [400]}),
    ("jpeg", "with a small picture in EXIF", small_picture, {"Segment.marker": [0xe1, 0xe0, 0xe1, 0xdb, 0xc0, 0xc4, 0xc4, 0xda], "Frame.width": [8]}),
    ("png", "with EXIF, a background, alphas and what its light is", bright_png,
     {"Field/Ascii": ["Maker"], "Rational.denominator": [1, 125], "Bkgd.red": [1], "Bkgd.blue": [3], "Alpha.alpha": [0, 1, 0, 2, 0, 3],
      "Mdcv.whitex": [15635], "Mdcv.most": [10000000], "Mdcv.least": [1], "Clli.content": [4000000], "Clli.average": [1000000],
      "Chunk.size": [6, 6, 24, 8, len(samples.exif()), 4, 9, 9, 7, 31]}),
    ("git-pack", "with a change to an object elsewhere", thin_pack, {"Object.type": [7], "Object.size": [300], "Object/Base:hex": ["05" * 20]}),
    ("wasm", "with all sections", lambda: WASM, {"Section.id": [1, 3, 4, 5, 6, 7, 8, 9, 10, 11, 0], "Signed.val": [-5, 1, 16],
     "Constant.high": [0x3ff80000],
                                                "Start.function": [1], "Locals.kind": [0x7e, 0x7d], "Block/Bytes": ["hello", "passive"],
                                                "Limits.least": [4, 1]}),
    ("wav", "in big order", lambda: sound(">", b"RIFX", 40, 4), {"Fmt.rate": [8000], "Fmt.bits": [16], "Data/Bytes": ["abcd"]}),
    ("wav", "of 64 bits", lambda: sound("<", b"RF64", 0xffffffff, 0xffffffff, WIDE), {"Sizes.data": [4], "Sizes.samples": [2], "Data/Bytes": ["abcd"]}),
    ("wav", "with too small a size", lambda: sound("<", b"RIFF", 36, 4), {"Fmt.rate": [8000], "Data/Bytes": ["abcd"]}),
    ("riff", "in big order", lambda: sound(">", b"RIFX", 40, 4), {"Plain.size": [16, 4], "Form.form": [0x57415645]}),
    ("riff", "of 64 bits", lambda: sound("<", b"RF64", 0xffffffff, 0xffffffff, WIDE), {"Long.data": [4], "Plain.size": [16]}),
]
ENDINGS = {"java-class": ".class"}
LONGER = {"utf8": b"\x80"}


# ---- the checks

def failed(name, text):
    print(f"gallery: {name}: {text}", file=sys.stderr)
    return False


def parse(command, grammar, file):
    answer = run(command, "parse", grammar, file)
    return answer.returncode, answer.stdout.decode()


def is_stable(command, name, grammar, sample, folder):
    """The grammar is accepted; its canonical text reads as the same text and gives the same tree."""
    if run(command, "check", grammar).stdout != b"accepted\n":
        return failed(name, "is not accepted")
    text = run(command, "fmt", grammar).stdout
    copy = os.path.join(folder, "copy.ipg")
    with open(copy, "wb") as file:
        file.write(text)
    if run(command, "fmt", copy).stdout != text or parse(command, copy, sample) != parse(command, grammar, sample):
        return failed(name, "its canonical text is another grammar")
    return True


def is_closed(command, name, grammar, data, folder):
    """Where the head says so, nothing may be missing at the end, nor be added; or a cut file is refused though more may be added."""
    with open(grammar, encoding="ascii") as file:
        head = file.read().split("\n\n")[0].replace("\n# ", " ")
    said = re.findall(r"\b(Closed|Open)\b[ a-z]*:", head)
    cut = re.search(r"[Aa] (cut (one|file)|file that is (cut|shorter) [a-z ]+) is refused", head)
    if len(said) != 1:
        return failed(name, "its head says neither Closed nor Open, or says it twice")
    fine = True
    for what, changed in (("shorter", data[:-1]), ("longer", data + LONGER.get(name, b"\0"))):
        other = os.path.join(folder, "changed")
        with open(other, "wb") as file:
            file.write(changed)
        refused = said == ["Closed"] or cut and what == "shorter"
        if refused and parse(command, grammar, other) != (1, "no parse\n"):
            fine = failed(name, f"a file that is a byte {what} has a parse")
    return fine


def are_due(name, lines, due):
    fine = True
    for spec, values in due.items():
        values = [str(value) for value in (values if isinstance(values, list) else [values])]
        if seen(lines, spec) != values:
            fine = failed(name, f"{spec} is {seen(lines, spec)[:12]}, due {values[:12]}")
    return fine


def has_values(name, lines, data):
    """The values that python3's modules tell, or that were worked out by hand."""
    due = PYTHON[name](data) if name in PYTHON else HAND[name]
    return are_due(name, lines, due) and (len(due) >= 3 or name in ("utf8",))


def reads_variants(command, name, grammar, folder):
    """Files of the format that other writers make."""
    fine = True
    for what, make, due in ((what, make, due) for other, what, make, due in VARIANTS if other == name):
        data, file = make(), os.path.join(folder, "variant")
        with open(file, "wb") as out:
            out.write(data)
        status, text = parse(command, grammar, file)
        fine = status == 0 and are_due(f"{name} {what}", tree(text, data), due) and fine or failed(name, f"{what}: status {status}")
    return fine


@functools.lru_cache(maxsize=None)
def asked(command, file):
    return run(*(word.replace("{}", file) for word in shlex.split(command)))


def has_words(row, lines, file):
    """What another program says of the sample stands in the tree."""
    name, command, pattern, specs, converted = row
    said = asked(command, file)
    told = [[converted(word) for word in groups] for groups in
            (found.groups() for found in re.finditer(pattern, said.stdout.decode("latin-1"), re.M))]
    columns = [spec(lines) if callable(spec) else seen(lines, spec) for spec in specs]
    if told and told == [list(group) for group in zip(*columns)] and len({len(column) for column in columns}) == 1:
        return True
    return failed(name, f"{command}: said {told}, the tree has {columns}; {said.stdout[-300:]!r} {said.stderr[-300:]!r}")


# What a file begins with tells none of these, as formats/MAGIC says.
NAMELESS = ("bson", "cbor", "dns", "msgpack", "protobuf", "stl", "tls", "utf8", "utmp")
# A file of these kinds is first of all one of another: the sample for riff is a sound.
SECOND = {"elf-notes": "@elf", "elf-dynamic": "@elf", "pe-imports": "@pe", "riff": "wav"}


def guessed(data):
    """The format that the first line of formats/MAGIC names whose bytes stand in the file."""
    with open(os.path.join(FOLDER, "MAGIC"), encoding="ascii") as file:
        rows = [line.split() for line in file if not line.startswith("#")]
    for name, place, bytes_ in rows:
        at = int(place) if int(place) >= 0 else len(data) + int(place)
        part = data[at:at + len(bytes_) // 2].hex() if at >= 0 else ""
        if re.fullmatch(bytes_, part):
            return name
    return None


def is_guessed(name, data):
    due = SECOND.get(name, None if name in NAMELESS else name)
    return guessed(data) == due or failed(name, f"formats/MAGIC guesses {guessed(data)}")


def tool(row):
    """The program that a row asks, also where a shell starts it."""
    words = shlex.split(row[1])
    return words[2].split()[0] if words[0] in ("sh", "bash") else words[0]


def missing():
    return sorted({tool(row) for row in TOOLS if shutil.which(tool(row)) is None})


def check(command, name, folder):
    grammar = os.path.join(FOLDER, name + ".ipg")
    data = samples.SAMPLES[name]()
    sample = os.path.join(folder, name + ENDINGS.get(name, ""))
    with open(sample, "wb") as file:
        file.write(data)
    status, text = parse(command, grammar, sample)
    if status != 0:
        return failed(name, f"status {status}: {text}")
    lines = tree(text, data)
    fine = is_guessed(name, data)
    fine = is_stable(command, name, grammar, sample, folder) and fine
    fine = is_closed(command, name, grammar, data, folder) and fine
    fine = has_values(name, lines, data) and fine
    fine = reads_variants(command, name, grammar, folder) and fine
    if name in OTHERS:
        other = os.path.join(folder, "other")
        with open(other, "wb") as file:
            file.write(OTHERS[name](data))
        fine = has_values(name, tree(parse(command, grammar, other)[1], data), data) and fine
    wrapped = os.path.join(folder, name + ".wrapped") if name in WRAPS else sample
    if name in WRAPS:
        with open(wrapped, "wb") as file:
            file.write(WRAPS[name](data))
    rows = [row for row in TOOLS if row[0] == name and shutil.which(tool(row))]
    return all([has_words(row, lines, wrapped) for row in rows]) and fine


def reads_long_directory(command, folder):
    """An image of ISO 9660 whose directory has 302 files, itself and the one above: all are read that `isoinfo` lists, at their places."""
    if not (shutil.which("genisoimage") and shutil.which("isoinfo")):
        return True
    files, image = os.path.join(folder, "files"), os.path.join(folder, "image")
    os.mkdir(files)
    for number in range(302):
        with open(os.path.join(files, f"a_name_that_is_long_{number}"), "wb") as file:
            file.write(b"%d" % number)
    run("genisoimage", "-quiet", "-R", "-o", image, files)
    listed = re.findall(r"\[ *(\d+) 0[02]\]", run("isoinfo", "-l", "-i", image).stdout.decode("latin-1"))
    status, text = parse(command, os.path.join(FOLDER, "iso9660.ipg"), image)
    with open(image, "rb") as file:
        read = seen(tree(text, file.read()), "Sector/Record.extent")
    return status == 0 and len(listed) == 304 and read == listed or failed("iso9660", f"of {len(listed)} records {len(read)} are read")


def main():
    if sys.argv[1:] == ["--missing"]:
        print("\n".join(missing()))
        return 0
    names = sorted(name[:-4] for name in os.listdir(FOLDER) if name.endswith(".ipg"))
    if names != sorted(samples.SAMPLES):
        failed("formats", "grammars and samples aren't the same")
        return 1
    with tempfile.TemporaryDirectory() as folder, concurrent.futures.ThreadPoolExecutor(4) as pool:
        folders = [os.path.join(folder, name) for name in names]
        for own in folders:
            os.mkdir(own)
        fine = pool.map(check, [sys.argv[1]] * len(names), names, folders)
        wrong = [name for name, right in zip(names, fine) if not right]
        if not reads_long_directory(sys.argv[1], folder):
            wrong.append("iso9660")
    rows = [row for row in TOOLS if shutil.which(tool(row))]
    print(f"gallery: {len(names)} grammars, {len(wrong)} of them wrong; {len(rows)} of {len(TOOLS)} questions to other programs asked")
    return 1 if wrong else 0


if __name__ == "__main__":
    sys.exit(main())
