#!/usr/bin/env bash
# Times `parse` on samples of the built-in formats at two sizes, and on a GIF of 5,000 frames, with the peak of memory and
# how many lines come out. Run `rt run tool_sample` once before, which builds it. IPG may name another program than the one
# that ./ipg runs.
set -eu
cd "$(dirname "$0")/.."
. bench/program.sh
sample=crates/tool_sample/out/tool_sample
[ -x "$sample" ] || { echo "$sample is not built" >&2; exit 1; }
work=$(mktemp -d)
trap 'rm -rf "$work"' EXIT

# frames COUNT: a GIF of so many frames of one point
frames() {
  printf 'GIF89a\x01\x00\x01\x00\x00\x00\x00'
  for ((k = 0; k < $1; k++)); do printf '\x2c\x00\x00\x00\x00\x01\x00\x01\x00\x00\x02\x02D\x01\x00'; done
  printf ';'
}

timed() {
  python3 bench/peak.py "$ipg" parse "@$1" "$2"
  echo "  $("$ipg" parse "@$1" "$2" | wc -l) lines"
}

for count in 5000 10000; do
  for kind in gif pe; do
    "$sample" "$kind" "$count" >"$work/$kind-$count"
    timed "$kind" "$work/$kind-$count"
  done
done
frames 2500 >"$work/frames-2500"
timed gif "$work/frames-2500"
frames 5000 >"$work/frames-5000"
timed gif "$work/frames-5000"
