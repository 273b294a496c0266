#!/usr/bin/env bash
# The paths of docs/QUERY.md over the built-in formats, on real files, against what other programs say of them.
set -u
cd "$(dirname "$0")/../.." || exit 1
. .ci/skips.sh
command -v python3 >/dev/null || {
  skip queries python3
  exit 0
}
failed=0
for kind in gif pe elf pcap; do
  python3 -B .ci/queries.py ./ipg "$kind"
  case $? in
    0) ;;
    77) skip "queries-$kind" "what is said above" ;;
    *) failed=1 ;;
  esac
done
exit "$failed"
