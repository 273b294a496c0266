#!/usr/bin/env bash
# Times `tool_region` against a plain Rust program: two million runs of four words, and a
# million entries put and found again. Run `rt run tool_region` once before, which builds it.
set -eu
cd "$(dirname "$0")/.."
ours=crates/tool_region/out/tool_region
[ -x "$ours" ] || { echo "$ours is not built" >&2; exit 1; }
work=$(mktemp -d)
trap 'rm -rf "$work"' EXIT
rustc -O -o "$work/peer" bench/region/peer.rs

# The least of five runs of each command, in milliseconds. The commands take turns, so that a
# busy moment of the machine meets all of them.
least() {
  local best=() commands=("$@") words round i from took
  for round in 1 2 3 4 5; do
    for i in "${!commands[@]}"; do
      read -ra words <<<"${commands[i]}"
      from=${EPOCHREALTIME/./}
      "${words[@]}" >"$work/said$i"
      took=$(((${EPOCHREALTIME/./} - from) / 1000))
      if [ "$round" = 1 ] || [ "$took" -lt "${best[i]}" ]; then best[i]=$took; fi
    done
  done
  for i in "${!commands[@]}"; do
    echo "${best[i]} ms  ${commands[i]} | $(cat "$work/said$i")"
  done
}

least "$work/peer region global 2000000" "$ours region global 2000000" "$ours region heap 2000000"
least "$work/peer memo global 1000000" "$work/peer folded global 1000000" "$ours memo global 1000000" "$ours memo heap 1000000"
