#!/usr/bin/env bash
# Times `parse` by the built-in grammars against a program of each format's own, on files that it makes, output to nowhere;
# then on an object of twice the symbols, and what a start takes. IPG may name another program than the one that ./ipg runs.
set -eu
cd "$(dirname "$0")/.."
. bench/program.sh
work=$(mktemp -d)
trap 'rm -rf "$work"' EXIT

# against KIND COUNT GOALS TOOL WORDS..: the program and the tool on a file
against() {
  local kind=$1 count=$2 goals=$3
  shift 3
  if ! command -v "$1" >/dev/null; then
    echo "$kind of $count: left out, for want of $1"
    return
  fi
  python3 bench/files.py "$kind" "$count" >"$work/$kind"
  # shellcheck disable=SC2086
  python3 bench/turns.py $goals "$kind of $count, $*" "$ipg" parse "@$kind" "$work/$kind" -- "$@" "$work/$kind"
}

echo "what | ipg | memory | for each line | the other | memory | ratio"
against elf 60000 "--goal 2 --most-mib 45 --per-line 70" readelf -hlSsW
against pcap 10000 "--goal 1.5 --most-mib 30 --per-line 70" tcpdump -nvvxx -r
against pe 10000 "--goal 1.1 --per-line 70" objdump -ph
against gif 5000 "--goal 1.5 --per-line 70" giftext

echo "what | on twice as much | memory | on once | memory | ratio"
for count in 60000 120000; do python3 bench/files.py elf "$count" >"$work/elf-$count"; done
python3 bench/turns.py --goal 2.2 "elf of 120000 and of 60000" \
  "$ipg" parse @elf "$work/elf-120000" -- "$ipg" parse @elf "$work/elf-60000"

echo "what | ipg | memory | the other | memory | ratio"
echo 'S -> U8 U8 ;' >"$work/two.ipg"
printf 'ab' >"$work/two"
python3 bench/turns.py --most-ms 1.5 "parse @elf of /bin/true, readelf" "$ipg" parse @elf /bin/true -- readelf -hlSsW /bin/true
python3 bench/turns.py --most-ms 0.4 "parse of two bytes, true" "$ipg" parse "$work/two.ipg" "$work/two" -- /bin/true
