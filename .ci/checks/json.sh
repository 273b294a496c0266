#!/usr/bin/env bash
# Trees as JSON texts, read by another reader, against the printed trees.
set -u
cd "$(dirname "$0")/../.." || exit 1
. .ci/skips.sh
command -v python3 >/dev/null || {
  skip json python3
  exit 0
}
./ipg fmt crates/ipg/data/row.ipg >/dev/null || exit 1
exec python3 -B .ci/json_trees.py ./ipg
