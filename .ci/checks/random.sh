#!/usr/bin/env bash
# Compares the program with a small evaluator on random grammars.
set -u
cd "$(dirname "$0")/../.." || exit 1
. .ci/skips.sh
command -v python3 >/dev/null || {
  skip random python3
  exit 0
}
top=$PWD
. dist/sources.sh
./ipg fmt crates/ipg/data/row.ipg >/dev/null || exit 1
is_built || program=dist/ipg
exec python3 .ci/random_grammars.py "$program"
