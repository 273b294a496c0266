#!/usr/bin/env bash
# Table files, cut, changed or random: `load` refuses each as a second reader does, and parses as an evaluator does; `table` writes bodies
# as a second writer does. All three were written from the pages.
set -u
cd "$(dirname "$0")/../.." || exit 1
top=$PWD
. .ci/skips.sh
. dist/sources.sh
command -v python3 >/dev/null || {
  skip tables python3
  exit 0
}
./ipg fmt crates/ipg/data/row.ipg >/dev/null || exit 1
is_built || program=dist/ipg
python3 -B .ci/table_files.py against "$program" && python3 -B .ci/table_writer.py "$program" && exec python3 -B .ci/random_tables.py "$program"
