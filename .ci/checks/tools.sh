#!/usr/bin/env bash
# Highlighting, manual page, completions, and what install.sh puts where and takes away.
set -u
cd "$(dirname "$0")/../.." || exit 1
. .ci/skips.sh
folder=$(mktemp -d) || exit 1
trap 'rm -rf "$folder"' EXIT
failed=0

# expect TEXT COMMAND..: the command prints this, and nothing else
expect() {
  local due=$1 got
  shift
  got=$("$@" 2>&1)
  if [ "$got" != "$due" ]; then
    printf 'tools: %s\n  got %q\n  due %q\n' "$*" "$got" "$due"
    failed=1
  fi
}

# has NAME: whether a program is there; else its check is left out
has() {
  command -v "$1" >/dev/null && return
  skip "tools-$1" "$1"
  return 1
}

if has python3; then
  python3 .ci/editors.py textmate || failed=1
  for editor in vim emacs; do
    if has "$editor"; then python3 .ci/editors.py "$editor" || failed=1; fi
  done
fi
# its remarks of style ask for pages of other programs
if has mandoc; then expect '' mandoc -T lint -W warning docs/ipg.1 docs/ipg-open.1; fi
if has zsh; then expect '' zsh -n editors/completions/_ipg && expect '' zsh -n editors/completions/_ipg-open; fi

# complete WORDS..: what bash offers for the last word
complete_by_bash() {
  bash -c '. editors/completions/ipg.bash; COMP_WORDS=("$@"); COMP_CWORD=$(($# - 1)); _ipg; echo "${COMPREPLY[*]}"' bash "$@"
}
complete_by_bash_open() {
  bash -c '. editors/completions/ipg-open.bash; COMP_WORDS=("$@"); COMP_CWORD=$(($# - 1)); _ipg_open; echo "${COMPREPLY[*]}"' bash "$@"
}
expect 'parse' complete_by_bash ipg p
expect 'check cert cover' complete_by_bash ipg c
expect '@gif' complete_by_bash no-ipg parse @g
expect "@gif $(find formats -name 'g*.ipg' -printf '@%f\n' | LC_ALL=C sort | sed 's/\.ipg$//' | xargs)" complete_by_bash ./ipg parse @g
expect 'formats' complete_by_bash ipg fo
expect '--memo' complete_by_bash ipg json @gif x --m
expect '--arena' complete_by_bash ipg explain @gif x --
expect 'formats/png.ipg' complete_by_bash ipg parse formats/png
expect '--memo' complete_by_bash ipg parse @gif x --m
expect 'on off' complete_by_bash ipg parse @gif x --memo ''
expect 'pe pcap' complete_by_bash ipg trial p

expect '-l' complete_by_bash_open ipg-open -l
expect '--partial' complete_by_bash_open ipg-open --p
expect 'formats/png.ipg' complete_by_bash_open ipg-open formats/png

# due NAME..: what an install has, as paths below its folder
due() {
  printf '%s\n' bin/ipg bin/ipg-open bin/ipg-studio include/ipg.h lib/libipg.so lib/libipg.so.1 lib/pkgconfig/ipg.pc \
    share/bash-completion/completions/{ipg,ipg-open,ipg-studio} share/ipg/installed share/ipg/studio.html \
    share/licenses/ipg/{LICENSE-APACHE,LICENSE-MIT,NOTICE} \
    share/man/man1/{ipg,ipg-open,ipg-studio}.1 share/zsh/site-functions/{_ipg,_ipg-open,_ipg-studio} "$@"
  find formats editors/{README.md,ipg.tmLanguage.json,emacs,vim} -type f ! -name '*.pyc' -printf 'share/ipg/%p\n'
}
have() {
  (cd "$1" && find . ! -type d -printf '%P\n')
}

# what is installed runs and is found, and is taken away to the last file and folder; what an older install left goes too
place="$folder/a prefix"
mkdir -p "$place/share/ipg/include" "$place/share/ipg/python/ipg" "$folder/stage/usr/lib"
touch "$place/share/ipg/include/ipg.h" "$place/share/ipg/python/ipg/libipg.so" "$place/own"
if ./install.sh "$place" >/dev/null; then
  expect '' diff <(due own | sort) <(have "$place" | sort)
  expect 'accepted' "$place/bin/ipg" check "$place/share/ipg/formats/png.ipg"
  expect 'png' "$place/bin/ipg-open" -l docs/studio.png
  expect 'libipg.so.1' readlink "$place/lib/libipg.so"
  cmp -s formats/zip.ipg "$place/share/ipg/formats/zip.ipg" || failed=1
  # as pkg-config reads it: a space in a value is written behind a backslash
  expect "prefix=$folder/a\\ prefix" head -n 1 "$place/lib/pkgconfig/ipg.pc"
  expect 'Libs: -L${libdir} -lipg' grep '^Libs:' "$place/lib/pkgconfig/ipg.pc"
  ./install.sh uninstall "$place"
  # share was there before
  expect $'own\nshare' find "$place" -mindepth 1 -printf '%P\n'
else
  failed=1
fi

# an install of the time when there was no list goes with its folders
old="$folder/old"
mkdir -p "$old/bin" "$old/share/"{ipg/formats,man/man1,bash-completion/completions,zsh/site-functions}
touch "$old/bin/ipg" "$old/share/ipg/formats/png.ipg" "$old/share/man/man1/ipg.1" "$old/share/bash-completion/completions/ipg" \
  "$old/share/zsh/site-functions/_ipg"
./install.sh uninstall "$old"
expect '' find "$old" -mindepth 1

# what a bare machine lacks is named
mkdir "$folder/bare"
for tool in bash dirname find install readlink sha256sum sort xargs; do ln -s "$(command -v "$tool")" "$folder/bare"; done
expect $'install.sh: there is no awk\n1' env PATH="$folder/bare" bash -c './install.sh "$1"; echo "$?"' bash "$folder/none"

# with the package for Python, and for a maker of packages; python's own compiled files go with it
if DESTDIR="$folder/stage" ./install.sh --python /usr >/dev/null; then
  expect 'prefix=/usr' head -n 1 "$folder/stage/usr/lib/pkgconfig/ipg.pc"
  package=$(find "$folder/stage/usr" -path '*-packages/ipg')
  expect "$(./ipg version)" env PYTHONPATH="${package%/*}" python3 -m ipg version
  expect True env PYTHONPATH="${package%/*}" python3 -c 'import ipg; print("png" in ipg.formats())'
  DESTDIR="$folder/stage" ./install.sh uninstall /usr
  expect 'usr usr/lib' eval 'echo $(cd "$folder/stage" && find . -mindepth 1 -printf "%P\n")'
else
  failed=1
fi
[ "$failed" -eq 0 ] && echo "tools: highlighting, manual page, completions and installation"
exit "$failed"
