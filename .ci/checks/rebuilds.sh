#!/usr/bin/env bash
# Real files put back from the leaves of their trees by the built-in grammars, or the least place that the printed tree misses.
set -u
cd "$(dirname "$0")/../.." || exit 1
. .ci/skips.sh
command -v python3 >/dev/null || {
  skip rebuilds python3
  exit 0
}
./ipg fmt crates/ipg/data/row.ipg >/dev/null || exit 1
exec python3 -B .ci/rebuilds.py ./ipg
