#!/usr/bin/env bash
# What an edit and its answer take beside a parse: of a byte at the end of a GIF of 5,000 frames, of a byte in its middle, and of a byte before
# 1,000,000 calls that are all known (so all their entries move). Then the memory of 1,000 edits in one session. Times are of scripts of many
# edits less those of one, output to nowhere. IPG may name another program than the one that ./ipg runs.
set -eu
cd "$(dirname "$0")/.."
. bench/program.sh
work=$(mktemp -d)
trap 'rm -rf "$work"' EXIT

python3 bench/files.py gif 5000 >"$work/gif"
python3 - "$work" <<'END'
import os
import sys

folder = sys.argv[1]
# a call a byte, each on that byte alone
with open(os.path.join(folder, "calls.ipg"), "w") as file:
    file.write("S -> for i = 0 to EOI do Row[i, i + 1] ; Row -> U8 ;\n")
with open(os.path.join(folder, "calls"), "wb") as file:
    file.write(bytes([1]) * 1_000_000 + b"\0")
END
python3 bench/edits_timed.py "$ipg" "$work" @gif "$work/gif"
python3 bench/edits_timed.py "$ipg" "$work" "$work/calls.ipg" "$work/calls"
