#!/usr/bin/env bash
# The library: called from C, C++ and Python, held against what other tools say of the same files; rows through it; threads; memory.
set -u
cd "$(dirname "$0")/../.." || exit 1
top=$PWD
. .ci/skips.sh
. dist/sources.sh
command -v cc >/dev/null && command -v c++ >/dev/null && command -v python3 >/dev/null || {
  skip library "a C compiler and python3"
  exit 0
}
folder=$(mktemp -d) || exit 1
trap 'rm -rf "$folder"' EXIT
failed=0

# the archive that was built here, both ways to link it; else the shared library that is kept, where it is of these sources
archive=crates/ipg_c/out/libipg_c.a
mapfile -t folders < <(own_folders ipg_c)
if [ -f "$archive" ] && [ -z "$(find crates.txt "${folders[@]}" -newer "$archive" -print -quit)" ]; then
  rm -rf lib/out && make -s -C lib || exit 1
  out=$top/lib/out
  linked=("$out/libipg.a")
elif [ "$(sources ipg_c)" = "$(tail -n +2 dist/LIBRARY)" ]; then
  out=$folder/lib
  mkdir "$out" && cp dist/libipg.so "$out/libipg.so.1" && ln -s libipg.so.1 "$out/libipg.so" || exit 1
  linked=("-L$out" -lipg "-Wl,-rpath,$out")
else
  skip library "an archive that was built here, or a library that is kept of these sources"
  exit 0
fi

# says WHAT COMMAND..: runs a command, and says whether it did
says() {
  local what=$1
  shift
  if "$@"; then echo "library: $what"; else
    echo "library: failed: $what"
    failed=1
  fi
}

flags="-Wall -Wextra -Werror -O1 -I lib/include"
cc $flags -std=c99 lib/examples/elf_sections.c "${linked[@]}" -o "$folder/elf_sections" || exit 1
c++ $flags -std=c++11 lib/examples/gif_list.cpp "${linked[@]}" -o "$folder/gif_list" || exit 1
cc $flags -std=c99 .ci/library_edges.c "${linked[@]}" -o "$folder/edges" || exit 1
cc $flags -std=c99 .ci/library_threads.c "${linked[@]}" -lpthread -o "$folder/threads" || exit 1
printf 'GIF89a\1\0\1\0\0\0\0\x2c\3\0\4\0\1\0\1\0\0\2\2\x4c\1\0\x3b' >"$folder/one.gif"

says "no names of the archive but its own are seen in libipg.so" test "$(nm -D --defined-only "$out/libipg.so" | awk '$2 == "T"' | wc -l)" -eq 3
if [ "$(library_sources)" = "$(cat dist/LIBRARY)" ]; then
  says "the library that is kept is the one built here" cmp "$out/libipg.so" dist/libipg.so
else
  echo "library: the library that is kept is older than the sources, or by another linker"
fi
says "the edges of a call" "$folder/edges"
says "eight threads" "$folder/threads" <"$folder/one.gif"
says "a picture by the example in C++" test "$("$folder/gif_list" "$folder/one.gif")" = "3 4 1 1"
if command -v readelf >/dev/null; then
  readelf -SW "$folder/elf_sections" | sed -n 's/^ *\[ *\([0-9]*\)\] \(.*\)/\1 \2/p' |
    awk '{ if ($1 == 0) print $1, "0", "0"; else print $1, $5, $6 }' |
    while read -r number offset size; do printf '%d %d %d\n' "$number" "0x$offset" "0x$size"; done >"$folder/due"
  "$folder/elf_sections" "$folder/elf_sections" |
    while read -r number offset size; do printf '%d %d %d\n' "$number" "$offset" "$size"; done >"$folder/got"
  says "the sections of an ELF file by the example in C, as readelf has them" cmp "$folder/due" "$folder/got"
else
  skip library_readelf readelf
fi

export IPG_LIBRARY=$out/libipg.so PYTHONPATH=$top/lib/python
printf '#!/bin/sh\nexec python3 -m ipg "$@"\n' >"$folder/ipg" && chmod +x "$folder/ipg"
says "rows through python3 -m ipg" python3 .ci/rows.py "$folder/ipg"
says "the package for Python" python3 .ci/library.py
if command -v valgrind >/dev/null; then
  says "valgrind finds nothing in the edges" valgrind -q --error-exitcode=9 --leak-check=full "$folder/edges"
else
  skip library_valgrind valgrind
fi
if cc $flags -std=c99 -g -fsanitize=address .ci/library_edges.c "${linked[@]}" -o "$folder/edges_asan" 2>/dev/null; then
  says "the address sanitizer finds nothing in the edges" "$folder/edges_asan"
else
  skip library_sanitizer "the address sanitizer"
fi

# each request for memory refused in turn: an answer, and never a crash
cc -shared -fPIC -O1 -o "$folder/refuse.so" .ci/refuse.c || exit 1
number=0
while true; do
  number=$((number + 1))
  REFUSED="$number" LD_PRELOAD="$folder/refuse.so" "$folder/gif_list" "$folder/one.gif" >"$folder/said" 2>"$folder/err"
  status=$?
  [ "$status" -le 1 ] || break
  grep -q refused "$folder/err" || break
done
says "$((number - 1)) requests for memory, each refused in turn" test "$status" -eq 0 -a "$number" -gt 20
exit "$failed"
