#!/usr/bin/env bash
# Times `query` beside `parse`, in turns, on an object of 60,000 symbols: a value of each symbol, and one number of the header.
# Output goes to nowhere. IPG may name another program than the one that ./ipg runs.
set -eu
cd "$(dirname "$0")/.."
. bench/program.sh
work=$(mktemp -d)
trap 'rm -rf "$work"' EXIT

# measure GOAL PATH: how many times as long, and as much memory, as the whole tree takes
measure() {
  python3 bench/turns.py --goal "$1" --memory-goal 1.3 "$2 of 60000 symbols" "$ipg" query @elf "$work/elf" "$2" -- "$ipg" parse @elf "$work/elf"
}

python3 bench/files.py elf 60000 >"$work/elf"
measure 1 '**/Sym.name'
measure 0.7 Head.shnum
measure 1 '**/Sym'
