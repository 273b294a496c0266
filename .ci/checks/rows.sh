#!/usr/bin/env bash
# Rows worked by hand, whole: what the program answers to words, grammars and inputs.
set -u
cd "$(dirname "$0")/../.." || exit 1
top=$PWD
. .ci/skips.sh
. dist/sources.sh
command -v python3 >/dev/null || {
  skip rows python3
  exit 0
}
./ipg fmt crates/ipg/data/row.ipg >/dev/null || exit 1
is_built || program=dist/ipg
exec python3 .ci/rows.py "$program"
