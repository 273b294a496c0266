"""Files of the formats that the program has grammars for, at any size: files.py elf|pcap|pe|gif COUNT, on the output.

COUNT is the number of symbols of an object, of packets of a capture, of sections of a program, of frames of an image.
`bomb COUNT` is an ELF file of so many sections, each of which says that the whole file is its symbols.
"""

import struct
import sys

HEAD, SECTION, SYMBOL = 64, 64, 24  # of an ELF file of 64 bits


def elf_head(kind, shoff, shnum, shstrndx):
    ident = b"\x7fELF" + bytes([2, 1, 1, 0]) + bytes(8)
    return ident + struct.pack("<HHIQQQIHHHHHH", kind, 62, 1, 0, 0, shoff, 0, HEAD, 0, 0, SECTION, shnum, shstrndx)


def elf_section(name, kind, offset, size, link=0, info=0, entry=0):
    return struct.pack("<IIQQQQIIQQ", name, kind, 0, 0, offset, size, link, info, 1, entry)


def elf(count):
    """An object: code, and so many functions in it."""
    code = bytes(16 * count)
    names, symbols = bytearray(b"\0"), bytearray(SYMBOL)
    for k in range(count):
        symbols += struct.pack("<IBBHQQ", len(names), 0x12, 0, 1, 16 * k, 16)
        names += b"function_%d\0" % k
    titles = b"\0.text\0.symtab\0.strtab\0.shstrtab\0"
    places = [HEAD]
    for piece in (code, symbols, names, titles):
        places.append(places[-1] + len(piece))
    table = elf_section(0, 0, 0, 0) + elf_section(1, 1, places[0], len(code))
    table += elf_section(7, 2, places[1], len(symbols), 3, 1, SYMBOL)
    table += elf_section(15, 3, places[2], len(names)) + elf_section(23, 3, places[3], len(titles))
    return elf_head(1, places[4], 5, 4) + code + symbols + names + titles + table


def bomb(count):
    """A head, and so many sections of the kind that holds symbols, from the file's first byte to its last."""
    size = HEAD + SECTION * count
    return elf_head(1, HEAD, count, 0) + elf_section(0, 2, 0, size, 0, 0, SYMBOL) * count


def checksum(head):
    total = sum(struct.unpack(">%dH" % (len(head) // 2), head))
    total = (total & 0xFFFF) + (total >> 16)
    return 0xFFFF - ((total & 0xFFFF) + (total >> 16))


def packet(k):
    """A datagram of up to 48 bytes over Ethernet."""
    said = bytes((k + n) % 256 for n in range(k % 49))
    udp = struct.pack(">HHHH", 20000 + k % 30000, 50000 + k % 10000, 8 + len(said), 0) + said
    head = struct.pack(">BBHHHBBH4s4s", 0x45, 0, 20 + len(udp), k % 65536, 0, 64, 17, 0, b"\x0a\0\0\1", b"\x0a\0\0\2")
    head = head[:10] + struct.pack(">H", checksum(head)) + head[12:]
    return b"\x02\0\0\0\0\1" + b"\x02\0\0\0\0\2" + b"\x08\0" + head + udp


def pcap(count):
    """A capture, a packet each millisecond."""
    pieces = [struct.pack("<IHHiIII", 0xA1B2C3D4, 2, 4, 0, 0, 65535, 1)]
    for k in range(count):
        one = packet(k)
        pieces += [struct.pack("<IIII", 1700000000 + k // 1000, k % 1000 * 1000, len(one), len(one)), one]
    return b"".join(pieces)


def pe_head(count, room):
    """What stands before the sections' table, as far as `room`."""
    coff = struct.pack("<HHIIIHH", 0x8664, count, 0, 0, 0, 240, 0x22)
    sizes = struct.pack("<HBBIIIII", 0x20B, 14, 0, 512 * count, 0, 0, 4096, 4096)
    place = struct.pack("<QIIHHHHHHIIIIHH", 0x140000000, 4096, 512, 6, 0, 0, 0, 6, 0, 0, 4096 * (count + 1), room, 0, 3, 0)
    rest = struct.pack("<QQQQII", 1 << 20, 4096, 1 << 20, 4096, 0, 16) + bytes(128)
    return b"MZ" + bytes(58) + struct.pack("<I", 64) + b"PE\0\0" + coff + sizes + place + rest


def pe(count):
    """A program whose sections have 512 bytes each."""
    room = (64 + 24 + 240 + 40 * count + 511) // 512 * 512
    pieces = [pe_head(count, room)]
    for k in range(count):
        name = b".s%d" % k
        pieces.append(struct.pack("<8sIIIIIIHHI", name, 512, 4096 * (k + 1), 512, room + 512 * k, 0, 0, 0, 0, 0x60000020))
    head = b"".join(pieces)
    return head + bytes(room - len(head)) + bytes(512 * count)


def gif(count):
    """Frames of one point each."""
    frame = b"," + struct.pack("<HHHHB", 0, 0, 1, 1, 0) + b"\x02\x02D\x01\0"
    return b"GIF89a" + struct.pack("<HHBBB", 1, 1, 0, 0, 0) + frame * count + b";"


KINDS = {"elf": elf, "pcap": pcap, "pe": pe, "gif": gif, "bomb": bomb}

if __name__ == "__main__":
    sys.stdout.buffer.write(KINDS[sys.argv[1]](int(sys.argv[2])))
