#!/usr/bin/env bash
# Trees beside their bytes, against the same lines by another program.
set -u
cd "$(dirname "$0")/../.." || exit 1
. .ci/skips.sh
command -v python3 >/dev/null || {
  skip view python3
  exit 0
}
./ipg fmt crates/ipg/data/row.ipg >/dev/null || exit 1
exec python3 -B .ci/view_lines.py ./ipg
