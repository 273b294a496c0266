"""How many packets a capture has of each length: as `tcpdump` counts them.

python3 capture.py FILE, with the package ../python on the path
"""

import collections
import mmap
import sys

import ipg


def main(name):
    with open(name, "rb") as file, mmap.mmap(file.fileno(), 0, access=mmap.ACCESS_READ) as data:
        lengths = ipg.builtin("pcap").parse(data).column("Rec", "cap")
    print(len(lengths), "packets")
    for size, count in sorted(collections.Counter(lengths).items()):
        print(size, count)


if __name__ == "__main__":
    main(sys.argv[1])
