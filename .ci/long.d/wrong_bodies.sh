#!/usr/bin/env bash
# Wrong bodies of each public crate, each tried on the one function that it changes: the prover must refuse it.
#   wrong_bodies.sh [--minutes N]
# matter: .ci/wrong_bodies.py crates crates.txt
set -u
cd "$(dirname "$0")/../.." || exit 1
. .ci/skips.sh
for tool in rt python3; do
  command -v "$tool" >/dev/null || {
    skip wrong_bodies "$tool"
    exit 0
  }
done
python3 -B .ci/wrong_bodies.py "$@"
status=$?
if [ "$status" -eq 77 ]; then
  skip wrong_bodies "libraries that were proved here"
  exit 0
fi
exit "$status"
