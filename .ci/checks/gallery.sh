#!/usr/bin/env bash
# The grammars of formats/ on samples, against what other programs and python3's own modules say of them; whether each number in them has
# a name; and on files of this machine.
set -u
cd "$(dirname "$0")/../.." || exit 1
. .ci/skips.sh
command -v python3 >/dev/null || {
  skip gallery python3
  exit 0
}
top=$PWD
. dist/sources.sh
./ipg check @gif >/dev/null || exit 1
is_built || program=dist/ipg
for tool in $(python3 .ci/gallery.py --missing); do
  skip "gallery-$tool" "$tool"
done
python3 .ci/gallery.py "$program"
status=$?
python3 -B .ci/labels.py "$program" || status=1
python3 -B .ci/gallery_files.py "$program" || status=1
exit "$status"
