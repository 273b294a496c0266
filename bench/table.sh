#!/usr/bin/env bash
# Times `load` of a table file beside reading the text and beside `parse`, in turns, and its memory beside the file's size. IPG may name another
# program than the one that ./ipg runs.
set -eu
cd "$(dirname "$0")/.."
. bench/program.sh
work=$(mktemp -d)
trap 'rm -rf "$work"' EXIT

echo "what | it | memory | the other | memory | ratio"
"$ipg" table @elf >"$work/elf.tab"
python3 bench/turns.py --goal 1.5 "load of @elf on /bin/true, beside fmt" "$ipg" load "$work/elf.tab" /bin/true -- "$ipg" fmt @elf
python3 bench/turns.py --goal 0.5 "load of @elf on /bin/true, beside parse" "$ipg" load "$work/elf.tab" /bin/true -- "$ipg" parse @elf /bin/true

# so many rules, each with as many references to what it read
python3 - 1000 40 >"$work/many.ipg" <<'END'
import sys
rules, references = map(int, sys.argv[1:])
for n in range(rules):
    sums = " + ".join(["U8.val"] * references)
    print("R%d -> U8 ?(%s >= 0) %s ;" % (n, sums, "R%d[1, EOI]" % (n + 1) if n + 1 < rules else "Bytes"))
END
printf 'ab' >"$work/input"
"$ipg" table "$work/many.ipg" >"$work/many.tab"
size=$(stat -c %s "$work/many.tab")
most=$(python3 -c "print(round(8 * $size / 2**20, 2))")
python3 bench/turns.py --any-status --goal 1 --most-mib "$most" "load of 1,000 rules of 40 references, a file of $size bytes, beside fmt" \
  "$ipg" load "$work/many.tab" "$work/input" -- "$ipg" fmt "$work/many.ipg"
