#!/usr/bin/env bash
# Times `decide` on families of systems, each at two sizes or more (`crates/tool_solve/src/families.rt`
# says what they are), and prints how many steps a refutation has; and each test of `ipg_solve`, its process
# counted in. Run `rt run tool_solve` and `rt test ipg_solve` once before, which build them.
set -eu
cd "$(dirname "$0")/.."
. bench/least.sh

for size in "chain 1000" "chain 10000" "cycle 1000" "cycle 10000" "open 50" "open 250" "closed 50" "closed 250" \
  "header 38" "header 100" "total 10" "total 100" "rounded 15" "rounded 100" "beside 15" "beside 100" \
  "rounds 3072" "rounds 98304" "joint 100" "joint 1000" "dense 2" "dense 3" "heavy 2" "heavy 8" \
  "parity 12" "parity 14"; do
  # shellcheck disable=SC2086
  least crates/tool_solve/out/tool_solve $size
done
tests=crates/ipg_solve/out/ipg_solve_tests
[ -x "$tests" ] || { echo "$tests is not built" >&2; exit 1; }
listed=$("$tests" --list)
for name in $(sed -n 's/: test$//p' <<<"$listed"); do
  least "$tests" "$name"
done
