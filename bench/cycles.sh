#!/usr/bin/env bash
# Times the search for simple cycles, and checks the counts that are known.
set -u
cd "$(dirname "$0")/../crates/tool_cycles" || exit 1
rt run -- complete 3 >/dev/null 2>&1 || { echo "tool_cycles is not built" >&2; exit 1; }
failed=0
while read -r shape size known; do
  started=$(date +%s%N)
  found=$(out/tool_cycles "$shape" "$size")
  ended=$(date +%s%N)
  echo "$shape $size: $found cycles, $(((ended - started) / 1000)) us"
  [ "$found" = "$known" ] || { echo "$shape $size: wants $known" >&2; failed=1; }
done <<'SHAPES'
ladder 60 0
looped 60 2
complete 9 125664
ring 1024 1
forward 1024 0
SHAPES
exit "$failed"
