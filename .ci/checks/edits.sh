#!/usr/bin/env bash
# Sessions of edits on samples: after each edit the answer is that of a parse of the edited bytes.
set -u
cd "$(dirname "$0")/../.." || exit 1
. .ci/skips.sh
command -v python3 >/dev/null || {
  skip edits python3
  exit 0
}
./ipg fmt crates/ipg/data/row.ipg >/dev/null || exit 1
exec python3 -B .ci/edits.py ./ipg
