#!/usr/bin/env bash
# The package for Python beside construct, hachoir and a reader by hand with struct, each where it is: captures of UDP over Ethernet, read down to
# the datagrams. Prints milliseconds, the least of so many rounds in turns; of a capture of 30 MB seconds and the peak of a process.
#   bench/python.sh [ROUNDS]
set -u
cd "$(dirname "$0")/.." || exit 1
rounds=${1-15}
python=python3
for one in python3 /usr/bin/python3; do
  "$one" -c 'import construct' 2>/dev/null && python=$one && break
done
folder=$(mktemp -d) || exit 1
trap 'rm -rf "$folder"' EXIT
for count in 1 1000; do python3 bench/files.py pcap "$count" >"$folder/$count"; done
export PYTHONPATH="$PWD/lib/python" IPG_LIBRARY="${IPG_LIBRARY-$PWD/dist/libipg.so}"
cat >"$folder/bench.py" <<'PY'
import resource, struct, subprocess, sys, time

import ipg

folder, rounds = sys.argv[1], int(sys.argv[2])
GRAMMAR = ipg.builtin("pcap")


def large():
    """30,000 packets of 1,000 bytes."""
    said = bytes(range(250)) * 4
    udp = struct.pack(">HHHH", 53, 53, 8 + len(said) - 42, 0) + said[42:]
    head = struct.pack(">BBHHHBBH4s4s", 0x45, 0, 20 + len(udp), 1, 0, 64, 17, 0, b"\x0a\0\0\1", b"\x0a\0\0\2")
    one = b"\2\0\0\0\0\1\2\0\0\0\0\2\x08\0" + head + udp
    file = struct.pack("<IHHiIII", 0xA1B2C3D4, 2, 4, 0, 0, 65535, 1)
    return file + b"".join(struct.pack("<IIII", k, 0, len(one), len(one)) + one for k in range(30000))


def by_ipg(data):
    return GRAMMAR.parse(data)


def caps_by_ipg(data):
    return GRAMMAR.parse(data).column("Rec", "cap")


def by_hand(data):
    """The same fields by struct, as a list of tuples."""
    told, at = [struct.unpack_from("<IHHiIII", data)], 24
    while at < len(data):
        record = struct.unpack_from("<IIII", data, at)
        ether = struct.unpack_from(">6s6sH", data, at + 16)
        address = struct.unpack_from(">BBHHHBBH4s4s", data, at + 30)
        datagram = struct.unpack_from(">HHHH", data, at + 50)
        told.append((record, ether, address, datagram, data[at + 58 : at + 16 + record[2]]))
        at += 16 + record[2]
    return told


def caps_by_hand(data):
    return [packet[0][2] for packet in by_hand(data)[1:]]


def with_construct():
    """Two readers by construct, or none."""
    try:
        import construct as c
    except ImportError:
        return {}
    udp = c.Struct("src" / c.Int16ub, "dst" / c.Int16ub, "length" / c.Int16ub, "sum" / c.Int16ub, "data" / c.GreedyBytes)
    address = c.Struct(
        "version" / c.Int8ub, "service" / c.Int8ub, "total" / c.Int16ub, "id" / c.Int16ub, "frag" / c.Int16ub, "ttl" / c.Int8ub,
        "proto" / c.Int8ub, "sum" / c.Int16ub, "from" / c.Bytes(4), "to" / c.Bytes(4), "options" / c.Bytes((c.this.version & 15) * 4 - 20),
        "body" / c.Switch(c.this.proto, {17: udp}, c.GreedyBytes),
    )
    ether = c.Struct("to" / c.Bytes(6), "from" / c.Bytes(6), "type" / c.Int16ub, "body" / c.Switch(c.this.type, {0x800: address}, c.GreedyBytes))
    record = c.Struct(
        "sec" / c.Int32ul, "frac" / c.Int32ul, "cap" / c.Int32ul, "orig" / c.Int32ul, "data" / c.FixedSized(c.this.cap, ether)
    )
    capture = c.Struct("magic" / c.Int32ul, "head" / c.Bytes(20), "packets" / c.GreedyRange(record))
    return {"construct": capture.parse, "construct caps": lambda data: [packet.cap for packet in capture.parse(data).packets]}


def in_turns(readers, data, times):
    least = {}
    for _ in range(rounds):
        for name, read in readers.items():
            began = time.perf_counter()
            for _ in range(times):
                read(data)
            least[name] = min(least.get(name, 1e9), (time.perf_counter() - began) / times)
    return "; ".join(f"{name} {1000 * took:.3f} ms" for name, took in least.items())


def alone(name):
    """One reader of the large capture, in this process."""
    data = large()
    before = resource.getrusage(resource.RUSAGE_SELF).ru_maxrss
    began = time.perf_counter()
    tree = {"ipg": by_ipg, "hand": by_hand, **with_construct()}[name](data)
    took = time.perf_counter() - began
    said = f"{name} {took:.2f} s, {resource.getrusage(resource.RUSAGE_SELF).ru_maxrss // 1024} MiB ({before // 1024} before)"
    if name == "ipg":
        began = time.perf_counter()
        column = tree.column("Rec", "cap")
        said += f"; a column of {len(column)} {time.perf_counter() - began:.3f} s"
    print(said)


def main():
    peers = with_construct()
    trees = {"ipg": by_ipg, "hand": by_hand, **{name: read for name, read in peers.items() if name == "construct"}}
    with open(f"{folder}/1", "rb") as one, open(f"{folder}/1000", "rb") as thousand:
        one, thousand = one.read(), thousand.read()
    caps = {"ipg": caps_by_ipg, "hand": caps_by_hand, **{name: read for name, read in peers.items() if name != "construct"}}
    assert len({tuple(read(thousand)) for read in caps.values()}) == 1, "the readers differ"
    print("one packet, tree:", in_turns(trees, one, 20))
    print("1,000 packets, tree:", in_turns(trees, thousand, 1))
    print("1,000 packets, tree and all lengths:", in_turns(caps, thousand, 1))
    tree = GRAMMAR.parse(thousand)
    print("1,000 packets, all lengths of a tree:", in_turns({"column": lambda _: tree.column("Rec", "cap")}, thousand, 10))
    print("what a parse of one packet spends on the grammar:", in_turns({"ipg_names": lambda _: ipg.builtin("pcap")}, one, 20))
    for name in trees:
        subprocess.run([sys.executable, *sys.argv, name], check=True)


if len(sys.argv) > 3:
    alone(sys.argv[3])
else:
    main()
PY
"$python" "$folder/bench.py" "$folder" "$rounds"
"$python" -c 'import hachoir' 2>/dev/null || echo "hachoir is not installed"
