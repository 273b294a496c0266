#!/usr/bin/env bash
# Real files by the built-in grammars, against what other programs say of them; for pcap such that tcpdump makes here.
set -u
cd "$(dirname "$0")/../.." || exit 1
. .ci/skips.sh
command -v python3 >/dev/null || {
  skip real python3
  exit 0
}
failed=0
for kind in gif pe elf pcap; do
  python3 .ci/real_files.py ./ipg "$kind"
  case $? in
    0) ;;
    77) skip "real-$kind" "what is said above" ;;
    *) failed=1 ;;
  esac
done
exit "$failed"
