#!/usr/bin/env bash
# Times `check` and `verify` of the built-in grammars, the program's start alone, and `check` of grammars that ask much of
# it. IPG may name another program than the one that ./ipg runs.
set -eu
cd "$(dirname "$0")/.."
. bench/least.sh
. bench/program.sh
work=$(mktemp -d)
trap 'rm -rf "$work"' EXIT

# ring COUNT: rules in a ring, with a byte before each call
ring() {
  for ((k = 0; k < $1; k++)); do echo "R$k -> U8 R$(((k + 1) % $1)) / \"\" ;"; done
}

# open COUNT: so many slots that may touch nothing before a call of the rule itself
open() {
  echo "S ->"
  for ((k = 0; k < $1; k++)); do echo "  B"; done
  printf '  S / "x" ;\nB -> "b" / "" ;\n'
}

least "$ipg" fmt crates/ipg/data/row.ipg
for kind in elf pe gif pcap; do
  least "$ipg" check "@$kind"
  "$ipg" cert "@$kind" >"$work/$kind"
  least "$ipg" verify "@$kind" "$work/$kind"
done
for count in 500 1000; do
  ring "$count" >"$work/ring-$count"
  least "$ipg" check "$work/ring-$count"
done
for count in 125 250; do
  open "$count" >"$work/open-$count"
  wants=2 least "$ipg" check "$work/open-$count"
done
