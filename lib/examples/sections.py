"""The sections of an ELF file: number, offset and size, as `readelf -S` has them; by columns of its tree.

python3 sections.py FILE, with the package ../python on the path
"""

import mmap
import sys

import ipg


def main(name):
    with open(name, "rb") as file, mmap.mmap(file.fileno(), 0, access=mmap.ACCESS_READ) as data:
        try:
            tree = ipg.builtin("elf").parse(data)
        except ipg.NoParse as error:
            sys.exit(f"{name}: {error}")
        for number, (offset, size) in enumerate(zip(tree.column("Sh", "off"), tree.column("Sh", "size"))):
            print(number, offset, size)


if __name__ == "__main__":
    main(sys.argv[1])
