#!/usr/bin/env bash
# A second checker of certificates, written from the pages, and `verify` answer alike: on certificates of the built-in
# grammars, of those of `formats/`, of random ones and from outside, and on such changed.
set -u
cd "$(dirname "$0")/../.." || exit 1
. .ci/skips.sh
command -v python3 >/dev/null || {
  skip second_checker python3
  exit 0
}
top=$PWD
. dist/sources.sh
./ipg fmt crates/ipg/data/row.ipg >/dev/null || exit 1
is_built || program=dist/ipg
exec python3 .ci/second_opinions.py "$program"
