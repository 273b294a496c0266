#!/usr/bin/env bash
# What `explain` says of refused grammars and of inputs, by a second implementation of its page; and how it ends on files that were
# cut or changed.
set -u
cd "$(dirname "$0")/../.." || exit 1
. .ci/skips.sh
command -v python3 >/dev/null || {
  skip explain python3
  exit 0
}
top=$PWD
. dist/sources.sh
./ipg check @gif >/dev/null || exit 1
is_built || program=dist/ipg
status=0
python3 .ci/explains.py "$program" || status=1
if is_built tool_sample; then
  python3 -B .ci/cut_files.py "$program" crates/tool_sample/out/tool_sample || status=1
else
  skip explain-cut "small programs that were built here"
fi
exit "$status"
