#!/usr/bin/env bash
# Each command on the pages for users prints what the page says.
set -u
cd "$(dirname "$0")/../.." || exit 1
. .ci/skips.sh
command -v python3 >/dev/null || {
  skip pages python3
  exit 0
}
top=$PWD
. dist/sources.sh
./ipg check @gif >/dev/null || exit 1
is_built || program=dist/ipg
pages=(README.md formats/README.md docs/{EXPLAIN,PATTERNS,REFUSALS,TUTORIAL,MANY,QUERY,JSON,VIEW,EDITS,COVER,TABLE,CERTIFICATE}.md)
exec python3 .ci/pages.py "$program" "${pages[@]}"
