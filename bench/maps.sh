#!/usr/bin/env bash
# A million puts, gets and edits of a memo by `tool_region maps` against plain Rust's `HashMap`, for each of some seeds: keys that
# begin in one of 64 heads, many of which share their low bits. Ends with status 1 where the two differ. Run `rt run tool_region`
# once before, which builds it.
#
#   maps.sh [COUNT [SEED..]]
set -eu
cd "$(dirname "$0")/.."
ours=crates/tool_region/out/tool_region
[ -x "$ours" ] || { echo "$ours is not built" >&2; exit 1; }
work=$(mktemp -d)
trap 'rm -rf "$work"' EXIT
rustc --edition 2024 -O -o "$work/peer" bench/region/maps.rs
count=${1-1000000}
[ $# -gt 0 ] && shift
[ $# -gt 0 ] || set -- 1 2 3 5 8
for seed; do
  "$ours" maps "$seed" "$count" >"$work/ours"
  "$work/peer" "$seed" "$count" | diff - "$work/ours"
  echo "seed $seed, $count operations: $(cat "$work/ours"), as by the HashMap"
done
