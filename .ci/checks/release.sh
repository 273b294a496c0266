#!/usr/bin/env bash
# What a release says of itself: one version in all places, what the kept files ask of a system, what is linked in, the lines that an auditor
# reads, where the pages link to, and the steps that a host runs. `.ci/long release` makes one.
set -u
cd "$(dirname "$0")/../.." || exit 1
. .ci/skips.sh
command -v python3 >/dev/null || {
  skip release-says python3
  exit 0
}
failed=0
python3 -B .ci/release.py version audit links workflows || failed=1
if command -v readelf >/dev/null && command -v objdump >/dev/null; then
  python3 -B .ci/release.py systems || failed=1
else
  skip release-systems "readelf and objdump"
fi
python3 -B release/notice.py check || failed=1
exit "$failed"
