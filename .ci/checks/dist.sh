#!/usr/bin/env bash
# The program that is kept in dist/ is the one that was built here, where it says that it was built from these sources; and
# `./ipg` takes the right one of the two, or builds one.
set -u
top="$(readlink -f "$(dirname "$0")/../..")"
. "$top/.ci/skips.sh"
. "$top/dist/sources.sh"
failed=0
if ! is_kept; then
  echo "dist: the program that is kept is older than the sources"
elif ! is_built; then
  skip dist "a program that was built here; ./prove builds one and compares"
elif cmp "$program" "$top/dist/ipg"; then
  echo "dist: the program that is kept is the one built here"
else
  failed=1
fi

# a small repository with the same scripts, whose programs say which of them runs, and whose sums are counted
folder=$(mktemp -d) || exit 1
trap 'rm -rf "$folder"' EXIT
here="$folder/here"
mkdir -p "$folder/bin" "$folder/aside" "$here/dist" "$here"/crates/{ipg,base}/{src,proofs} "$here/crates/other/src"
cp -- "$top/ipg" "$here/ipg" && cp -- "$top/dist/sources.sh" "$here/dist/sources.sh" || exit 1
printf 'base:\nother:\nipg: base\n' >"$here/crates.txt"
for name in base other ipg; do echo "fn $name() {}" >"$here/crates/$name/src/lib.rt"; done
echo 'a proof' >"$here/crates/base/proofs/Lib.antt"

# says NAME WORD: a program that says a word
says() {
  printf '#!/bin/sh\necho %s\n' "$2" >"$1" && chmod +x "$1"
}
says "$here/dist/ipg" kept
printf '#!/bin/sh\nexit 1\n' >"$folder/bin/rt"
printf '#!/bin/sh\necho sum >>%q\nexec %q "$@"\n' "$folder/sums" "$(command -v sha256sum)" >"$folder/bin/sha256sum"
chmod +x "$folder/bin/rt" "$folder/bin/sha256sum"
(top=$here && sources >"$here/dist/SOURCES")

# expect WHAT WHO SUMS: `./ipg` is answered by `kept`, `built`, or `build` where it would build one, with so many sums
expect() {
  local got
  : >"$folder/sums"
  got=$(PATH="$folder/bin:$PATH" "$here/ipg" 2>/dev/null) || got=${?/#70/build}
  got+=" $(wc -l <"$folder/sums")"
  if [ "$got" != "$2 $3" ]; then
    echo "dist: $1: got $got, due $2 $3"
    failed=1
  fi
}

# the note is as old as what follows is young; a file's time goes by ticks of some milliseconds
pass_time() {
  sleep 0.02
  touch "$here/dist/out/kept"
  sleep 0.02
}

# changed WHAT EDIT UNDO [SUMS]: after the edit one would be built, and after its undoing the kept one is found again by sums
changed() {
  rm -rf "$folder/aside" && cp -a "$here" "$folder/aside"
  pass_time
  (cd "$here" && eval "$2") || failed=1
  expect "$1" build "${4-1}"
  (cd "$here" && eval "$3") || failed=1
  expect "$1, and set back" kept 1
  pass_time
  expect "$1, and looked at again" kept 0
}

lib=crates/base/src/lib.rt
proof=crates/base/proofs/Lib.antt
was="$folder/aside"
expect 'a fresh clone' kept 1
pass_time
expect 'a second run' kept 0
changed 'a source is edited' "echo >>$lib" "cp $was/$lib $lib"
changed 'a proof is edited' "echo >>$proof" "cp $was/$proof $proof"
changed 'a source is edited under its old time' "sed s/fn/nf/ $was/$lib >$lib; touch -r $was/$lib $lib" "cp -p $was/$lib $lib"
changed 'another source of that time is moved there' "tac $lib $proof >x; touch -r $lib x; mv x $lib" "cp -p $was/$lib $lib"
changed 'a source is added' 'touch crates/base/src/more.rt' 'rm crates/base/src/more.rt'
changed 'a source is removed' "rm $lib" "cp -p $was/$lib $lib"
changed 'a folder of sources is added' 'cp -rp crates/base/src crates/base/specs' 'rm -r crates/base/specs'
changed 'crates change their names' 'mv crates/base x; mv crates/other crates/base' 'mv crates/base crates/other; mv x crates/base'
changed 'the list of crates is edited' "sed -i 's/base$/base other/' crates.txt" "cp -p $was/crates.txt ."
changed 'the list of sums is another' 'echo x >>dist/SOURCES' "cp -p $was/dist/SOURCES dist"
changed 'the list of sums is gone' 'rm dist/SOURCES' "cp -p $was/dist/SOURCES dist" 0
changed 'the kept program is gone' 'rm dist/ipg' "cp -p $was/dist/ipg dist" 0
changed 'the kept program may not be run' 'chmod -x dist/ipg' 'chmod +x dist/ipg' 0

pass_time
echo 'fn other() { }' >"$here/crates/other/src/lib.rt"
expect 'a source of another program is edited' kept 1
cp -a "$here" "$folder/there"
here="$folder/there"
expect 'a copy of the checkout' kept 1
rm -r "$here/dist/out"
got=$(for _ in 1 2 3 4; do "$here/ipg" & done; wait)
if [ "$got" != $'kept\nkept\nkept\nkept' ] || [ "$(ls "$here/dist/out")" != kept ]; then
  echo "dist: four at once: got $got"
  failed=1
fi
rm -r "$here/dist/out" && : >"$here/dist/out"
expect 'where nothing can be noted' kept 1
expect 'where nothing can be noted, again' kept 1
rm "$here/dist/out"

mkdir "$here/crates/ipg/out" && says "$here/crates/ipg/out/ipg" built
expect 'a program that was built here' built 0
sleep 0.02
touch "$here/$lib"
expect 'a program that is older than a source' kept 1
pass_time
expect 'a program that is older than a source, again' kept 0
echo >>"$here/$lib"
expect 'a program and a kept one that are older' build 1
says "$here/crates/ipg/out/ipg" built
expect 'a program that was built anew' built 0
[ "$failed" -eq 0 ] && echo "dist: each run is answered by the program that is due"
exit "$failed"
