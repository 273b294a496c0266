#!/usr/bin/env bash
# Times `tool_tokens` on texts of 2^19 and 2^20 bytes, eight runs each. Run `rt run tool_tokens` once before, which builds it.
set -eu
cd "$(dirname "$0")/.."
. bench/least.sh
ours=crates/tool_tokens/out/tool_tokens

for kind in symbols name digits comments string; do
  least "$ours" "$kind" 524288 8
  least "$ours" "$kind" 1048576 8
done
