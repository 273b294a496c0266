#!/usr/bin/env bash
# Times `tool_names`, four runs a process: a text is read, and then read and resolved, so that resolving is the difference.
# Run `rt run tool_names` once before, which builds it.
set -eu
cd "$(dirname "$0")/.."
. bench/least.sh
ours=crates/tool_names/out/tool_names

for kind in "rules 500" "rules 1000" "terms 128" "terms 256"; do
  least "$ours" read "${kind% *}" "${kind#* }" 4
  least "$ours" resolve "${kind% *}" "${kind#* }" 4
done
