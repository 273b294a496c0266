#!/usr/bin/env bash
# Tries the edits of the crates that are named, or of all that have any, of must-fail/, wrong-bodies/ and more-edits/: in a copy of
# the checkout, by `rt must-fail`, which begins with what checks on this machine kept, and tries nothing again that hasn't
# changed. Prints a line for each edit, and last how many there are; ends with 0 where all were refused. A crate may have none.
set -u
cd "$(dirname "$0")/.." || exit 1
copy=$(mktemp -d) || exit 1
trap 'rm -rf "$copy"' EXIT
tar -c --exclude=out crates crates.txt HANDLES | tar -x -C "$copy" || exit 1

# together NAME: puts the crate's other edits into its must-fail/; fails where two have one name
together() {
  local crate="$copy/crates/$1" edit
  mkdir -p "$crate/must-fail" || return 1
  for edit in "$crate"/wrong-bodies/* "$crate"/more-edits/*; do
    [ -e "$edit" ] || continue
    if [ -e "$crate/must-fail/${edit##*/}" ]; then
      echo "$1: ${edit##*/} stands twice"
      return 1
    fi
    mv "$edit" "$crate/must-fail/" || return 1
  done
}

# tried NAME: tries the crate's edits, and tells what it came to; where no edit has a line, all that was said
tried() {
  local log="$copy/log" status=0
  [ -n "$(ls -A "$copy/crates/$1/must-fail")" ] || { echo "$1: no edits"; return; }
  (cd "$copy" && rt must-fail "$1") >"$log" 2>&1 || status=1
  grep -E '^rt: (must-fail [^ ]+: |[^ ]+: [0-9]+ of its [0-9]+ must-fail edits )|BAD EDIT' "$log" || { cat "$log"; status=1; }
  edits=$((edits + $(find "$copy/crates/$1/must-fail" -type f | wc -l)))
  refused=$((refused + $(grep -cE '^rt: must-fail [^ ]+: refused,' "$log")))
  return "$status"
}

if [ $# -eq 0 ]; then
  for crate in crates/*/; do
    set -- "$@" "$(basename "$crate")"
  done
fi
status=0 edits=0 refused=0
for name; do
  if [ ! -d "crates/$name" ]; then
    echo "$name: no crate of that name"
    status=1
  elif together "$name"; then
    tried "$name" || status=1
  else
    status=1
  fi
done
echo "$# crates, $edits edits, $refused refused"
[ "$edits" -eq "$refused" ] || status=1
exit "$status"
