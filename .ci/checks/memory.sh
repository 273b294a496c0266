#!/usr/bin/env bash
# Refuses each request for memory in turn: the program ends with 7 and says nothing, or answers as ever.
set -u
cd "$(dirname "$0")/../.." || exit 1
top=$PWD
. .ci/skips.sh
. dist/sources.sh
./ipg fmt crates/ipg/data/row.ipg >/dev/null || exit 1
is_built || program=dist/ipg
command -v cc >/dev/null || {
  skip memory "a C compiler"
  exit 0
}
folder=$(mktemp -d) || exit 1
trap 'rm -rf "$folder"' EXIT
cc -shared -fPIC -O1 -o "$folder/refuse.so" .ci/refuse.c || exit 1
cat >"$folder/g" <<'END'
S -> A[1, EOI] B[0, 1] {n = A.end} for i = 0 to n do U8[i, n] / A[0, EOI - 1] ; # two alternatives
A -> "b" / L {k = 1} where { L -> "c" ?(k) ; } ;
B -> switch { case (EOI == 1) "\x61" else Bytes } ;
END
printf 'ac' >"$folder/input"
echo 'S -> B[H.n, EOI] H[0, 1] ; B -> Bytes ; H -> U8 {n = U8.val} ;' >"$folder/header"
printf '\2ab' >"$folder/body"
printf '1 2 63\n0 2 6162\n' >"$folder/script"
echo 'L -> I[0,EOI] L[I.end,EOI] / "" ; I -> "x" ;' >"$folder/list"
echo 'L -> I[0,EOI] L[I.end,EOI] / "" ; I -> "x" / "" ;' >"$folder/loose"
printf 'xx' >"$folder/items"
./ipg table "$folder/list" >"$folder/table" || exit 1
printf 'ipgcert 2\ndead 1\n1 c 3 1 9 1 10 1 12\ncycles 0\n' >"$folder/cert"

# each WORDS..: runs the program with these words once for each request, up to the first run that refuses none.
each() {
  local due number=0 refused=0 status
  ./ipg "$@" >"$folder/due"
  due=$?
  while true; do
    number=$((number + 1))
    timeout 60 env REFUSED="$number" LD_PRELOAD="$folder/refuse.so" "$program" "$@" >"$folder/out" 2>"$folder/err"
    status=$?
    [ -s "$folder/err" ] || break
    if [ "$(cat "$folder/err")" != refused ]; then
      echo "memory: $*: request $number: $(head -n 1 "$folder/err")"
      return 1
    fi
    if [ "$status" -eq 7 ] && [ ! -s "$folder/out" ]; then
      refused=$((refused + 1))
    elif [ "$status" -ne "$due" ] || ! cmp -s "$folder/out" "$folder/due"; then
      echo "memory: $*: request $number refused: status $status"
      return 1
    fi
  done
  if [ "$status" -ne "$due" ] || [ "$refused" -eq 0 ]; then
    echo "memory: $*: no request was refused"
    return 1
  fi
  echo "memory: $1: $((number - 1)) requests, each refused in turn; $refused ended the run"
}

each parse crates/ipg/data/row.ipg crates/ipg/data/row.bin --arena 1 &&
  each parse "$folder/g" "$folder/input" --arena 1 &&
  each parse "$folder/header" "$folder/body" --arena 1 &&
  each json "$folder/g" "$folder/input" &&
  each view "$folder/g" "$folder/input" &&
  each view "$folder/g" "$folder/input" '**/U8' &&
  each query "$folder/g" "$folder/input" '**/U8/**.start' &&
  each rebuild "$folder/header" "$folder/body" &&
  each edit "$folder/header" "$folder/body" "$folder/script" &&
  each load "$folder/table" "$folder/items" &&
  each table "$folder/list" &&
  each cover "$folder/header" &&
  each explain "$folder/loose" &&
  each explain "$folder/header" "$folder/items" &&
  each trial gif 1 &&
  each fmt "$folder/g" &&
  each check "$folder/list" &&
  each cert "$folder/list" &&
  each verify "$folder/list" "$folder/cert"
