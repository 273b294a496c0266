#!/usr/bin/env bash
# Times `cover` of each built-in grammar, and `rebuild` beside `parse`, in turns, on files that it makes, output to nowhere; then `rebuild`
# on twice as much. IPG may name another program than the one that ./ipg runs.
set -eu
cd "$(dirname "$0")/.."
. bench/program.sh
work=$(mktemp -d)
trap 'rm -rf "$work"' EXIT

echo "what | it | memory | the other | memory | ratio"
for kind in elf pe gif pcap; do
  python3 bench/turns.py --any-status --most-ms 200 "cover of @$kind, beside check" "$ipg" cover "@$kind" -- "$ipg" check "@$kind"
done
for file in "elf 60000" "gif 5000" "pcap 10000"; do
  kind=${file% *}
  python3 bench/files.py "$kind" "${file#* }" >"$work/$kind"
  python3 bench/turns.py --any-status --goal 1.2 "rebuild of $file, beside parse" "$ipg" rebuild "@$kind" "$work/$kind" -- "$ipg" parse "@$kind" "$work/$kind"
done
head -c 33554432 /dev/zero >"$work/once"
head -c 67108864 /dev/zero >"$work/twice"
echo 'S -> many U8 Bytes ;' >"$work/numbers.ipg"
echo 'S -> Bytes ;' >"$work/raw.ipg"
python3 bench/turns.py --goal 2.2 "rebuild of 64 MiB of raw bytes, and of 32" \
  "$ipg" rebuild "$work/raw.ipg" "$work/twice" -- "$ipg" rebuild "$work/raw.ipg" "$work/once"
head -c 1000000 /dev/zero >"$work/once"
head -c 2000000 /dev/zero >"$work/twice"
python3 bench/turns.py --goal 2.2 "rebuild of 2,000,000 numbers, and of 1,000,000" \
  "$ipg" rebuild "$work/numbers.ipg" "$work/twice" -- "$ipg" rebuild "$work/numbers.ipg" "$work/once"
