#!/usr/bin/env bash
# Times `check`: one Combine of 2^20 and of 2^21 entries, and chains of 50,000 and of 100,000
# Splits. Run `rt run tool_cert` once before, which builds it.
set -eu
cd "$(dirname "$0")/.."
. bench/least.sh

for size in "combine 524288" "combine 1048576" "splits 50000" "splits 100000"; do
  # shellcheck disable=SC2086
  least crates/tool_cert/out/tool_cert $size
done
