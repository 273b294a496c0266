#!/usr/bin/env bash
# Many small files by the library, in one process: by one call (`ipg_trees`), by a call of the whole command line each (`ipg_run`), and by a
# process each. Prints milliseconds, the least of five rounds in turns, and how many times as long the others take as the one call.
#   bench/library.sh [COUNT]
set -u
cd "$(dirname "$0")/.." || exit 1
count=${1-1000}
[ -f lib/out/libipg.a ] || make -s -C lib || exit 1
folder=$(mktemp -d) || exit 1
trap 'rm -rf "$folder"' EXIT
cc -O2 -std=c99 -I lib/include bench/library.c lib/out/libipg.a -o "$folder/library" || exit 1
export IPG="${IPG-$PWD/dist/ipg}"
python3 - "$folder" "$count" <<'PY'
import os, struct, subprocess, sys, time

folder, count = sys.argv[1], int(sys.argv[2])
ipg = os.environ["IPG"]


def one_call(grammar, file):
    subprocess.run([f"{folder}/library", str(count), grammar, file], check=True, stdout=subprocess.DEVNULL)


def runs(grammar, file):
    subprocess.run([f"{folder}/library", str(count), grammar, file, "run"], check=True, stdout=subprocess.DEVNULL)


def processes(grammar, file):
    with open(os.devnull, "wb") as nowhere:
        for _ in range(count):
            os.waitpid(os.posix_spawn(ipg, [ipg, "parse", grammar, file], os.environ, file_actions=[(os.POSIX_SPAWN_DUP2, nowhere.fileno(), 1)]), 0)


packet = bytes(12) + b"\x08\x00" + bytes.fromhex("4500001c000100004011000001020304050607080035003500080000")
capture = struct.pack("<IHHiIII", 0xA1B2C3D4, 2, 4, 0, 0, 65535, 1) + struct.pack("<4I", 0, 0, len(packet), len(packet)) + packet
picture = b"GIF89a\1\0\1\0\0\0\0\x2c\3\0\4\0\1\0\1\0\0\2\2\x4c\1\0\x3b"
for grammar, sample in (("@gif", picture), ("@pcap", capture)):
    file = f"{folder}/sample"
    with open(file, "wb") as out:
        out.write(sample)
    least = {}
    for _ in range(5):
        for how in (one_call, runs, processes):
            began = time.perf_counter()
            how(grammar, file)
            least[how.__name__] = min(least.get(how.__name__, 1e9), time.perf_counter() - began)
    print(grammar, count, *(f"{how} {1000 * took:.1f} ms, {took / least['one_call']:.1f} times;" for how, took in least.items()))
PY
