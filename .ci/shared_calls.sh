#!/usr/bin/env bash
# Forty rules, each of which calls the next one twice on the whole part: with the memo each body runs once (41), and each
# second call is known (40). Without it 2^40 bodies of the last rule would run. `shared_calls.sh COUNTS`, a program that counts.
set -u
folder=$(mktemp -d) || exit 1
trap 'rm -rf "$folder"' EXIT
for k in $(seq 40 -1 1); do
  echo "F$k -> F$((k - 1))[0, EOI] \"no\"[0, EOI] / F$((k - 1))[0, EOI] ;"
done >"$folder/g.ipg"
echo 'F0 -> Bytes ;' >>"$folder/g.ipg"
printf x >"$folder/x.bin"
said=$("$1" "$folder/g.ipg" "$folder/x.bin" on)
case $said in
  "tree on bodies=41 hits=40 "*) echo "counts: forty rules that share their calls, as worked by hand" ;;
  *) echo "counts: forty rules that share their calls: $said" && exit 1 ;;
esac
