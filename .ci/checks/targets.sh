#!/usr/bin/env bash
# The kept builds for other machines: they are of the modules and files at hand, and some commands by each say what the program says.
# `.ci/long.d/targets.sh` runs the whole list on all targets, and this with CI_LONG=1: then the package of npm is tried, and no command here.
set -u
cd "$(dirname "$0")/../.." || exit 1
. .ci/skips.sh
failed=0
if [ ! -f dist/TARGETS ]; then
  skip targets "builds of targets/build.sh --keep"
  exit 0
fi
sha256sum --quiet -c dist/TARGETS || failed=1
# what targets/SIZES says is so, and within what was set: 2,000,000 bytes a program, 1,300,000 the module, 450,000 by gzip
while read -r file bytes packed; do
  most=2000000
  most_packed=2000000
  if [ "$file" = dist/ipg.wasm ]; then
    most=1300000
    most_packed=450000
  fi
  if [ "$(stat -c %s "$file")" != "$bytes" ] || [ "$(gzip -9nc "$file" | wc -c)" != "$packed" ] || [ "$bytes" -gt "$most" ] ||
    [ "$packed" -gt "$most_packed" ]; then
    echo "targets: $file: not of $bytes bytes, $packed by gzip, or above $most and $most_packed"
    failed=1
  fi
done <targets/SIZES
folder=$(mktemp -d) || exit 1
trap 'rm -rf "$folder"' EXIT

# expect WHAT GOT DUE
expect() {
  [ "$2" = "$3" ] && return
  echo "targets: $1: got $2, due $3"
  failed=1
}

# what a program of Linux asks for: no loader, and this kernel
asks() {
  expect "$1" "$(readelf -lW "$1" | grep -c INTERP) $(readelf -nW "$1" | sed -n 's/.*OS: Linux, ABI: //p')" "0 $2"
}

# the package of npm, made in a copy and installed from its file: what is in it, and what its command says
npm_package() {
  local due app=$folder/app
  mkdir -p "$folder/copy/dist" "$app" "$folder/samples" && cp -r targets formats LICENSE-* NOTICE "$folder/copy" &&
    cp dist/ipg.wasm "$folder/copy/dist" || return 1
  (cd "$folder/copy/targets" && npm pack --silent --offline --pack-destination "$folder") >/dev/null || return 1
  expect 'what npm packs' "$(tar tzf "$folder"/ipg-*.tgz | grep -v /formats/ | LC_ALL=C sort | xargs)" \
    "package/LICENSE-APACHE package/LICENSE-MIT package/NOTICE $(echo package/{README.md,cli.mjs,ipg.d.ts,ipg.mjs,ipg.wasm,package.json})"
  expect "the package's version" "$(basename "$folder"/ipg-*.tgz .tgz)" "$(dist/ipg version | sed -n '1s/^ipg /ipg-/p')"
  (cd "$app" && echo '{}' >package.json && npm install --silent --offline --no-audit --no-fund "$folder"/ipg-*.tgz) >/dev/null || return 1
  python3 -B formats/samples.py "$folder/samples"
  cp "$folder/samples/png" "$app/x.png"
  due=$(dist/ipg view formats/png.ipg "$folder/samples/png"; echo $?)
  expect 'npx ipg view @png x.png' "$(cd "$app" && npx --offline ipg view @png x.png; echo $?)" "$due"
  expect 'npx ipg view @png -' "$(cd "$app" && npx --offline ipg view @png - <x.png; echo $?)" "$due"
  expect 'npx ipg version' "$(cd "$app" && npx --offline ipg version 2>&1; echo $?)" "$(dist/ipg version && echo 0)"
  printf 'no module' >"$app/node_modules/ipg/ipg.wasm"
  expect 'npx ipg without a module' "$(cd "$app" && npx --offline ipg version 2>&1; echo $?)" $'what was loaded as ipg.wasm isn\'t WebAssembly\n69'
  printf '\0asm\1\0\0\0\5\3\1\x80\1' >"$app/node_modules/ipg/ipg.wasm"
  expect 'npx ipg where memories are wanting' "$(cd "$app" && npx --offline ipg version 2>&1 | cut -d, -f1; echo "${PIPESTATUS[0]}")" \
    $'ipg wants WebAssembly with 64-bit memories\n69'
}

# wheels for other machines: their names, and the library in them
wheels() {
  local name
  for name in aarch64-linux:libipg.so:libipg-aarch64.so:manylinux2014_aarch64 x86_64-windows:ipg.dll:ipg.dll:win_amd64; do
    IFS=: read -r target inner kept platform <<<"$name"
    rm -rf "$folder/wheels" && mkdir "$folder/wheels" || return 1
    (cd lib/python/backend && IPG_TARGET=$target python3 -B -c 'import sys, wheels; wheels.build_wheel(sys.argv[1])' "$folder/wheels") || return 1
    expect "the wheel for $target" "$(basename "$folder"/wheels/*)" "ipg-$(dist/ipg version | sed -n '1s/^ipg //p')-py3-none-$platform.whl"
    unzip -p "$folder"/wheels/*.whl "ipg/$inner" | cmp - "dist/$kept" || return 1
  done
}
if command -v cc >/dev/null; then
  cc -Wall -Wextra -Werror -O2 targets/heap_test.c -o "$folder/heap_test" && "$folder/heap_test" || failed=1
else
  skip targets-heap "a C compiler"
fi
if command -v tsc >/dev/null; then
  cp targets/ipg.d.ts "$folder/ipg.d.mts" && cp targets/use.ts "$folder/use.mts" &&
    tsc --strict --noEmit --target es2022 --module node16 --moduleResolution node16 --lib es2022,dom "$folder/use.mts" || failed=1
else
  skip targets-types tsc
fi
if command -v readelf >/dev/null; then asks dist/ipg-static 3.2.0 && asks dist/ipg-aarch64 3.7.0; else skip targets-kernel readelf; fi
if [ "${CI_LONG-}" != 1 ]; then
  :
elif command -v npm >/dev/null; then
  npm_package || failed=1
else
  skip targets-package npm
fi
if command -v unzip >/dev/null; then wheels || failed=1; else skip targets-wheels unzip; fi

if [ "${CI_LONG-}" != 1 ]; then
  python3 targets/runs.py --few --in dist x86_64-linux-static aarch64-linux-static
  case $? in
  0) ;;
  3) skip targets-list "a target's file in dist/, or what runs it" ;;
  *) failed=1 ;;
  esac
fi
exit "$failed"
