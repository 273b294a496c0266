#!/usr/bin/env bash
# Times `parse` against a plain Rust program that makes the same tree by hand and prints the same lines (`baseline/`), with
# the peaks of memory of both; then `parse` alone on twice as much, to see that no step of it looks at all that came before.
# IPG may name another program than the one that ./ipg runs.
set -eu
cd "$(dirname "$0")/.."
. bench/program.sh
work=$(mktemp -d)
trap 'rm -rf "$work"' EXIT
rustc --edition 2024 -O -o "$work/baseline" bench/baseline/main.rs

# terms COUNT: records of so many bytes, each a term
terms() {
  echo "S -> many R ; R ->"
  for ((k = 0; k < $1; k++)); do echo "  U8"; done
  echo ";"
}

echo 'S -> for i = 0 to EOI do U8[i, i + 1] ;' >"$work/array.ipg"
echo 'S -> many U8 ;' >"$work/many.ipg"
echo 'S -> for i = 0 to EOI do B[i, i + 1] ; B -> U8 ;' >"$work/calls.ipg"
echo 'S -> for i = 0 to EOI do A[i == 0 ? 0 : A(i - 1).end, EOI] ; A -> U8 ;' >"$work/behind.ipg"
echo 'L -> U8 L / "" ;' >"$work/list.ipg"
terms 128 >"$work/terms-128.ipg"
terms 256 >"$work/terms-256.ipg"
for size in 0 1 100 500000 512000 1000000 1024000 2000000 4000000; do
  head -c "$size" /dev/zero >"$work/$size"
done

# same KIND: both print the same lines of small files
same() {
  local size memo
  for size in 0 1 100; do
    for memo in off on; do
      "$ipg" parse "$work/$1.ipg" "$work/$size" --memo "$memo" >"$work/ours"
      "$work/baseline" "$1$([ "$memo" = off ] || echo -memo)" "$work/$size" | cmp - "$work/ours"
    done
  done
}

# arena SIZE: enough for a file of so many bytes
arena() { if [ "$1" -gt 1000000 ]; then echo 2048; else echo 512; fi; }

# against KIND MEMO SIZE TIMES BYTES GOAL..: the program and the one by hand on a file of so many bytes, with the goals for how
# many times as long it takes and for the bytes of memory for each line
against() {
  local kind=$1 memo=$2 size=$3 times=$4 bytes=$5 hand=$1
  shift 5
  if [ "$memo" = on ]; then hand=$kind-memo; fi
  python3 bench/turns.py "$@" --goal "$times" --per-line "$bytes" "$kind of $size, memo $memo" "$ipg" parse "$work/$kind.ipg" "$work/$size" \
    --memo "$memo" --arena "$(arena "$size")" -- "$work/baseline" "$hand" "$work/$size"
}

# twice KIND SIZE OTHER MORE: the program on grammar KIND and SIZE bytes, and on OTHER and MORE, which is twice as much
twice() {
  python3 bench/turns.py --goal 2.2 "$3 on $4, $1 on $2" \
    "$ipg" parse "$work/$3.ipg" "$work/$4" --arena 2048 -- "$ipg" parse "$work/$1.ipg" "$work/$2" --arena 2048
}

for kind in array many calls behind list; do same "$kind"; done

echo "what | ipg | memory | for each line | by hand | memory | ratio"
for kind in array many; do against "$kind" on 1000000 1.1 70; done
for memo in off on; do against calls "$memo" 1000000 1.1 70; done
for memo in off on; do against behind "$memo" 1000000 1.2 70; done
for size in 1000000 4000000; do
  against list off "$size" 1.2 95 --most-ms 3000 --most-mib 954
  against list on "$size" 1.2 120 --most-ms 3000 --most-mib 954
done

echo "what | on twice as much | memory | on once | memory | ratio"
for kind in array many calls behind; do twice "$kind" 1000000 "$kind" 2000000; done
twice list 2000000 list 4000000
twice terms-128 512000 terms-256 1024000
