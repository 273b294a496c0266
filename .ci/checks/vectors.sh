#!/usr/bin/env bash
# Cases from independent implementations: trees, what a parse counts, what a path picks, answers to certificates, conditions of calls; and cases
# worked by hand, of texts, names, operators and words.
set -u
cd "$(dirname "$0")/../.." || exit 1
top=$PWD
. .ci/skips.sh
. dist/sources.sh
command -v python3 >/dev/null || {
  skip vectors python3
  exit 0
}
failed=0

# built NAME WORDS..: proves and builds a small program, where it isn't yet
built() {
  is_built "$1" || (cd "crates/$1" && rt run -- "${@:2}") </dev/null >/dev/null || failed=1
}

python3 .ci/vectors.py parses ./ipg parse || failed=1
python3 .ci/vectors.py queries ./ipg query || failed=1
python3 .ci/vectors.py certificates ./ipg verify || failed=1
python3 .ci/vectors.py texts ./ipg || failed=1
if ! command -v rt >/dev/null && ! { is_built tool_counts && is_built tool_conditions; }; then
  skip vectors-tools "the toolchain, or small programs that were built"
  exit "$failed"
fi
built tool_counts data/row.ipg data/row.bin
python3 .ci/vectors.py counts crates/tool_counts/out/tool_counts || failed=1
bash .ci/shared_calls.sh crates/tool_counts/out/tool_counts || failed=1
built tool_conditions data/list.ipg
python3 .ci/vectors.py conditions crates/tool_conditions/out/tool_conditions || failed=1
# what is accepted now, and could be walked by the earlier conditions
python3 .ci/vectors.py earlier crates/tool_conditions/out/tool_conditions earlier || failed=1
exit "$failed"
