#!/usr/bin/env bash
# Times `tool_rules` on made texts of up to 1,000,006 bytes and on half of each, eight readings a run, and a plain Rust
# program on the same texts (it checks no limit and recurses, so it gets no open brackets). Run `rt run tool_rules` once
# before, which builds ours.
set -eu
cd "$(dirname "$0")/.."
. bench/least.sh
work=$(mktemp -d)
trap 'rm -rf "$work"' EXIT
rustc -O -o "$work/peer" bench/read/peer.rs
ours=crates/tool_rules/out/tool_rules

for text in "rules 500" "rules 1000" "sum 4" "sum 8"; do
  least "$ours" "${text% *}" "${text#* }" 8
  least "$work/peer" "${text% *}" "${text#* }" 8
done
least "$ours" brackets 500000 8
least "$ours" brackets 1000000 8
