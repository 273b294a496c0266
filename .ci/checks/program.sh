#!/usr/bin/env bash
# Runs the program on real files, and compares what it prints and its exit status.
set -u
cd "$(dirname "$0")/../.." || exit 1
. .ci/skips.sh
grammar=crates/ipg/data/row.ipg
input=crates/ipg/data/row.bin
tree=$'0 S 0 2 start=0 end=2\n1 tok 0 2 6162\n'
folder=$(mktemp -d) || exit 1
trap 'rm -rf "$folder"' EXIT
failed=0

# expect STATUS TEXT WORDS..: the program with these words ends with this status, and has printed this text.
expect() {
  local due="$2status $1" got
  shift 2
  got=$(./ipg "$@"; echo "status $?")
  if [ "$got" != "$due" ]; then
    printf 'program: %s\n  got %q\n  due %q\n' "$*" "${got:0:400}" "$due"
    failed=1
  fi
}

: >"$folder/empty"
echo 'S -> Bytes ;' >"$folder/bytes.ipg"
echo 'S -> T ;' >"$folder/name.ipg"
echo 'S -> S[0, EOI] ;' >"$folder/loop.ipg"
echo 'L -> I[0,EOI] L[I.end,EOI] / "" ; I -> "x" ;' >"$folder/list.ipg"
echo 'L -> I[0,EOI] L[I.end,EOI] / "" ; I -> "x" / "" ;' >"$folder/blank.ipg"
echo 'Int -> Int[0, EOI - 1] Digit[EOI - 1, EOI] / Digit[0, 1] ; Digit -> U8 ?(U8.val >= 48 && U8.val <= 57) ;' >"$folder/int.ipg"
printf '42' >"$folder/42"
printf 'ipgcert 2\ndead 1\n1 c 3 1 9 1 10 1 12\ncycles 0\n' >"$folder/list.cert"
printf 'ipgcert 2\ndead 1\n1 c 3 2 9 1 10 1 12\ncycles 0\n' >"$folder/unsound.cert"
printf 'ipgcert 2\ndead 0\ncycles 0\n' >"$folder/none.cert"
echo 'S -> many U8 Bytes ;' >"$folder/many.ipg"
echo 'S -> many A ; A -> Bytes ;' >"$folder/loose.ipg"
echo 'S -> many S / "x" ;' >"$folder/itself.ipg"
echo 'S -> "x" many S[1, EOI] ;' >"$folder/further.ipg"
echo 'S->many A[1,EOI];A->U8;' >"$folder/spaces.ipg"
truncate -s $((2 ** 30 + 1)) "$folder/long"
: >"$folder/closed"
chmod 000 "$folder/closed"
cp "$input" "$folder/"$'\xff'

expect 0 "$tree" parse "$grammar" "$input"
expect 0 "$tree" parse "$grammar" /dev/stdin < <(cat "$input")
expect 1 $'no parse\n' parse "$grammar" "$folder/empty"
expect 0 $'0 S 0 2 start=0 end=2\n1 Bytes 0 2 6162\n' parse "$folder/bytes.ipg" "$input"
expect 2 $'refused G7 UnknownRule 5\n' parse "$folder/name.ipg" "$input"
expect 0 $'S -> T ;\n' fmt "$folder/name.ipg"
expect 2 $'refused G13 MayLoop EOI=0 S/0/0/0\n' check "$folder/loop.ipg"
expect 2 $'refused G13 MayLoop EOI=0 S/0/0/0\n' cert "$folder/loop.ipg"
expect 2 $'refused G13 MayLoop EOI=0 S/0/0/0\n' parse "$folder/loop.ipg" "$folder/absent"
expect 2 $'refused G13 MayLoop EOI=0 L/0/1/0\n' check "$folder/blank.ipg"
expect 2 $'refused G7 UnknownRule 5\n' check "$folder/name.ipg"
expect 2 $'refused G7 UnknownRule 5\n' verify "$folder/name.ipg" "$folder/absent"
for name in "$grammar" "$folder/list.ipg" "$folder/int.ipg"; do
  expect 0 $'accepted\n' check "$name"
  ./ipg cert "$name" >"$folder/cert"
  expect 0 $'verified\n' verify "$name" "$folder/cert"
done
int=$'0 Int 0 2 start=0 end=2\n1 Int 0 1 start=0 end=1\n2 Digit 0 1 start=0 end=1\n3 U8 0 1 val=52\n'
int+=$'1 Digit 1 2 start=1 end=2\n2 U8 1 2 val=50\n'
expect 0 "$int" parse "$folder/int.ipg" "$folder/42"
expect 0 $'verified\n' verify "$folder/list.ipg" "$folder/list.cert"
expect 9 $'refused C1 CertText 0\n' verify "$folder/list.ipg" "$folder/empty"
expect 9 $'refused C2 Mismatch 0\n' verify "$folder/list.ipg" "$folder/none.cert"
expect 9 $'refused C3 Unsound 0\n' verify "$folder/list.ipg" "$folder/unsound.cert"
expect 0 $'0 S 0 2 start=0 end=2\n1 many U8 2\n2 U8 0 1 val=97\n2 U8 1 2 val=98\n1 Bytes 2 2 -\n' parse "$folder/many.ipg" "$input"
expect 2 $'refused G14 NoTouch S 0 0\n' check "$folder/loose.ipg"
expect 2 $'refused G14 NoTouch S 0 0\n' check "$folder/itself.ipg"
expect 0 $'accepted\n' check "$folder/further.ipg"
expect 0 $'S -> many A [ 1 , EOI ] ;\nA -> U8 ;\n' fmt "$folder/spaces.ipg"
for kind in elf pe gif pcap; do
  expect 0 $'accepted\n' check "@$kind"
  ./ipg cert "@$kind" >"$folder/cert"
  expect 0 $'verified\n' verify "@$kind" "$folder/cert"
done

# rules that each call all others, where no two calls of a cycle go together: the known counts of simple cycles
while read -r rules known; do
  for ((k = 0; k < rules; k++)); do
    line="R$k ->"
    for ((other = 0; other < rules; other++)); do
      [ "$other" -eq "$k" ] || line+=" ?(EOI == $k) R$other /"
    done
    echo "$line \"\" ;"
  done >"$folder/complete.ipg"
  ./ipg cert "$folder/complete.ipg" >"$folder/cert"
  if [ "$(grep '^cycles ' "$folder/cert")" != "cycles $known" ]; then
    echo "program: the cycles of $rules rules that call one another aren't $known"
    failed=1
  fi
  expect 0 $'verified\n' verify "$folder/complete.ipg" "$folder/cert"
done <<<$'2 1\n3 5\n4 20\n5 84\n6 409\n7 2365'

# a chain of as many rules as a text may have, each called by the one before it on its whole part
for ((k = 0; k < 1023; k++)); do echo "Link$k -> Link$((k + 1)) ;"; done >"$folder/chain.ipg"
echo 'Link1023 -> "x" / "" ;' >>"$folder/chain.ipg"
printf 'x' >"$folder/x"
printf 'y' >"$folder/y"

# chain TO START END TOKEN: the tree, by docs/TREE.md, on a part up to TO, of which each rule touches START to END
chain() {
  local k
  for ((k = 0; k < 1024; k++)); do echo "$k Link$k 0 $1 start=$2 end=$3"; done
  echo "1024 tok $4"
}

expect 0 "$(chain 1 0 1 '0 1 78')"$'\n' parse "$folder/chain.ipg" "$folder/x"
expect 0 "$(chain 1 1 0 '0 0 -')"$'\n' parse "$folder/chain.ipg" "$folder/y"
expect 0 "$(chain 0 0 0 '0 0 -')"$'\n' parse "$folder/chain.ipg" "$folder/empty"

# calls that nest 100,000 deep, with the memo and without
truncate -s 100000 "$folder/zeros"
echo 'L -> U8 L / "" ;' >"$folder/deep.ipg"
for memo in on off; do
  ./ipg parse "$folder/deep.ipg" "$folder/zeros" --memo "$memo" >"$folder/out"
  if [ $? -ne 0 ] || [ "$(wc -l <"$folder/out")" -ne 200002 ]; then
    echo "program: a tree of 100,000 levels, --memo $memo"
    failed=1
  fi
done

: >"$folder/nothing"
./ipg edit "$folder/deep.ipg" "$folder/zeros" "$folder/nothing" >"$folder/out"
if [ $? -ne 0 ] || [ "$(head -n 1 "$folder/out")" != '0 tree bodies=100001' ] || [ "$(wc -l <"$folder/out")" -ne 200003 ]; then
  echo "program: a tree of 100,000 levels, by edit"
  failed=1
fi

# a chain of rules, each of which calls the next one twice on the same part: 2^41 runs without the memo
for ((k = 40; k > 0; k--)); do echo "F$k -> F$((k - 1))[0, EOI] \"no\"[0, EOI] / F$((k - 1))[0, EOI] ;"; done >"$folder/twice.ipg"
echo 'F0 -> "x" ;' >>"$folder/twice.ipg"
timeout 60 ./ipg parse "$folder/twice.ipg" "$folder/x" >"$folder/out"
if [ $? -ne 0 ] || [ "$(tail -n 1 "$folder/out")" != '41 tok 0 1 78' ]; then
  echo "program: forty rules that call each other twice"
  failed=1
fi

# an array of 2^32 - 1 items doesn't fit one MiB, and nothing is written; one of two does
echo 'S -> U32LE[0, 4] for i = 0 to U32LE.val do Bytes[4, 4] ;' >"$folder/items.ipg"
printf '\xff\xff\xff\xff' >"$folder/most"
printf '\x02\0\0\0' >"$folder/two"
expect 7 '' parse "$folder/items.ipg" "$folder/most" --arena 1
expect 7 '' parse "$folder/deep.ipg" "$folder/zeros" --arena 1
# a call for each of 7,500 bytes fits one MiB without the memo alone
echo 'S -> for i = 0 to EOI do B[i, i + 1] ; B -> U8 ;' >"$folder/calls.ipg"
truncate -s 7500 "$folder/calls"
expect 7 '' parse "$folder/calls.ipg" "$folder/calls" --arena 1
./ipg parse "$folder/calls.ipg" "$folder/calls" --arena 1 --memo off >"$folder/out"
if [ $? -ne 0 ] || [ "$(wc -l <"$folder/out")" -ne 15002 ]; then
  echo "program: a call for each of 7,500 bytes in one MiB, --memo off"
  failed=1
fi
for command in json view; do
  expect 7 '' "$command" "$folder/calls.ipg" "$folder/calls" --arena 1
  ./ipg "$command" "$folder/calls.ipg" "$folder/calls" --arena 1 --memo off >"$folder/out"
  if [ "$?" -ne 0 ]; then
    echo "program: $command of a call for each of 7,500 bytes in one MiB, --memo off"
    failed=1
  fi
done
expect 7 '' explain "$folder/calls.ipg" "$folder/calls" --arena 1
expect 0 $'0 S 0 4 start=0 end=4\n1 U32LE 0 4 val=2\n1 for Bytes 2\n2 Bytes 4 4 -\n2 Bytes 4 4 -\n' parse "$folder/items.ipg" "$folder/two" --arena 1
# conditions and completed intervals that would take gigabytes are told before they are made; smaller ones are made
test='EOI > 9'
for ((level = 0; level < 31; level++)); do
  test="($test ? EOI > $level : EOI < $((level + 3)))"
  if [ $level -eq 9 ] || [ $level -eq 30 ]; then
    echo "S -> ?($test) S[1, EOI] / \"\" ;" >"$folder/choices$level.ipg"
  fi
done
expect 0 $'accepted\n' check "$folder/choices9.ipg"
expect 7 '' check "$folder/choices30.ipg"
switches() {
  printf 'S -> "%0100000d" switch { ' 0
  printf 'case (1) U8 %.0s' $(seq "$1")
  echo 'else U8 } ;'
}
switches 20 >"$folder/few.ipg"
switches 20000 >"$folder/branches.ipg"
expect 0 $'accepted\n' check "$folder/few.ipg"
expect 7 '' check "$folder/branches.ipg"
# what a failed alternative stored is given back: two such trees don't fit one MiB, three that fail and one do
items='C -> for i = 0 to EOI do B[i, i + 1] ; B -> U8 ;'
echo "S -> C C[0, EOI] ; $items" >"$folder/both.ipg"
echo "S -> C ?(0) \"\" / C ?(0) \"\" / C ?(0) \"\" / C ; $items" >"$folder/four.ipg"
truncate -s 5000 "$folder/calls"
expect 7 '' parse "$folder/both.ipg" "$folder/calls" --arena 1 --memo off
./ipg parse "$folder/four.ipg" "$folder/calls" --arena 1 --memo off >"$folder/out"
if [ $? -ne 0 ] || [ "$(wc -l <"$folder/out")" -ne 10003 ]; then
  echo "program: three alternatives that fail before one that doesn't, in one MiB"
  failed=1
fi

expect 0 $'kind=pcap n=10000 bytes=620024 nodes=320019 bodies=30003\n' trial pcap 10000
expect 0 $'kind=elf n=2 bytes=194 nodes=90 bodies=4\n' trial elf 2
expect 0 $'kind=gif n=3 bytes=44 nodes=62 bodies=30\n' trial gif 3
expect 0 $'kind=pe n=1 bytes=241 nodes=32 bodies=4\n' trial pe 1
expect 4 $'usage\n' trial gif 10001
expect 4 $'usage\n' trial tar 1

expect 5 $'read fault\n' check @x
expect 2 $'refused G4 Syntax 0\n' parse "$folder/empty" "$input"
expect 2 $'refused G4 Syntax 0\n' fmt "$folder/empty"
expect 2 $'refused G1 TooLong\n' parse "$folder/long" "$input"
expect 2 $'refused G1 TooLong\n' fmt "$folder/long"
expect 0 $'S -> "ab" [ 0 , 2 ] ;\n' fmt "$grammar"
expect 0 $'S -> Bytes ;\n' fmt /dev/stdin < <(cat "$folder/bytes.ipg")
expect 4 $'usage\n' parse
expect 4 $'usage\n' fmt "$grammar" "$input"
expect 4 $'usage\n' parse --help
# a file whose name is no UTF-8, which `main` sees to
expect 4 $'usage\n' parse "$grammar" "$folder/"$'\xff'
expect 4 $'usage\n' parse "$grammar" "$input" --arena 0
expect 4 $'usage\n' parse "$grammar" "$input" --memo maybe
expect 0 "$tree" parse --memo=off --arena 4096 "$grammar" -- "$input"
for name in "$folder/absent" "$folder" "$folder/closed"; do
  if [ -f "$name" ] && [ -r "$name" ]; then
    skip program-closed "a user who may not read each file"
    continue
  fi
  expect 5 $'read fault\n' parse "$name" "$input"
  expect 5 $'read fault\n' parse "$grammar" "$name"
  expect 5 $'read fault\n' fmt "$name"
  expect 5 $'read fault\n' check "$name"
  expect 5 $'read fault\n' verify "$grammar" "$name"
done
expect 8 $'too large\n' parse "$grammar" "$folder/long"
expect 8 $'too large\n' verify "$grammar" "$folder/long"

for words in "parse $grammar $input" "query $grammar $input **"; do
  # shellcheck disable=SC2086
  (set -f && ./ipg $words >/dev/full)
  if [ $? -ne 6 ]; then
    echo "program: a full device is no write fault of $words"
    failed=1
  fi
done

# a pipe whose reader has gone
mkfifo "$folder/pipe"
: <"$folder/pipe" &
exec 4>"$folder/pipe"
wait
./ipg parse "$grammar" "$input" >&4
if [ $? -ne 6 ]; then
  echo "program: a closed pipe is no write fault"
  failed=1
fi
exec 4>&-
[ "$failed" -eq 0 ] && echo "program: all runs are as they are due"
exit "$failed"
