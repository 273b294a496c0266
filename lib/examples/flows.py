"""How many bytes each host of a capture sent and was sent, by the lengths in the heads of IPv4; the busiest first.

python3 flows.py FILE, with the package ../python on the path
"""

import collections
import mmap
import sys

import ipg


def flows(tree, data):
    """The bytes of each pair of hosts, by their addresses."""
    between = collections.Counter()
    for packet in tree.walk("Ip"):
        # what is no whole head of IPv4 is raw bytes, without attributes
        total = packet.attrs.get("total")
        if total is not None:
            at = packet.start
            between[data[at + 12 : at + 16], data[at + 16 : at + 20]] += total
    return between


def main(name):
    with open(name, "rb") as file, mmap.mmap(file.fileno(), 0, access=mmap.ACCESS_READ) as data:
        tree = ipg.builtin("pcap").parse(data)
        sent, received = collections.Counter(), collections.Counter()
        for (source, target), size in flows(tree, data).items():
            sent[source] += size
            received[target] += size
    print(len(tree.column("Rec", "cap")), "packets")
    for host in sorted(sent | received, key=lambda host: (-sent[host] - received[host], host)):
        print(".".join(map(str, host)), sent[host], received[host])


if __name__ == "__main__":
    main(sys.argv[1])
