#!/usr/bin/env bash
# Builds the proved program, or the library, for other machines, from the modules that `./prove keep` kept in dist/.
#   targets/build.sh TARGET..     to targets/out/
#   targets/build.sh --keep       all of them, and to dist/; dist/TARGETS then has the sums of what they were made of, targets/SIZES their sizes
# TARGET is x86_64-linux-static, aarch64-linux-static, x86_64-windows, or of the library wasm64, aarch64-linux-library, x86_64-windows-library.
# IPG_MODULES may name another folder of modules, IPG_WASM_LEVEL another level than -Os for wasm64, IPG_JOBS how many are built at once.
set -eu
targets=(x86_64-linux-static aarch64-linux-static x86_64-windows wasm64 aarch64-linux-library x86_64-windows-library)
unset CDPATH
top="$(dirname -- "$(dirname -- "$(readlink -f -- "${BASH_SOURCE[0]}")")")"
here="$top/targets"
modules="${IPG_MODULES-$top/dist}"
kit="$(dirname -- "$(rt doc)")"
clang="$kit/toolchain/bin/clang"
room="$(mktemp -d)"
trap 'rm -rf "$room"' EXIT

# what the toolchain says to its clang, but for the machine and the level
words=(--no-default-config -no-canonical-prefixes -fintegrated-cc1 -fno-crash-diagnostics -Werror -c -x ir
  -ffunction-sections -fdata-sections -Xclang -fmerge-functions
  -mllvm -no-trap-after-noreturn -mllvm -trap-unreachable
  -mllvm -disable-machine-licm -mllvm -disable-postra-machine-licm -mllvm -sink-common-insts=false)
linked=(-s "-Wl,--gc-sections,--build-id=none")

# layout_of TRIPLE: the line of LLVM's for its memory. All agree in what the module rests on: 64-bit pointers, low bytes first, i64 and i128
# at their own sizes.
layout_of() {
  case $1 in
  aarch64-unknown-linux-gnu) echo 'e-m:e-p270:32:32-p271:32:32-p272:64:64-i8:8:32-i16:16:32-i64:64-i128:128-n32:64-S128-Fn32' ;;
  x86_64-w64-windows-gnu) echo 'e-m:w-p270:32:32-p271:32:32-p272:64:64-i64:64-i128:128-f80:128-n8:16:32:64-S128' ;;
  wasm64-unknown-unknown) echo 'e-m:e-p:64:64-p10:8:8-p20:8:8-i64:64-i128:128-n32:64-S128' ;;
  esac
}

# module NAME: unpacks a kept module
module() {
  xz -dc -- "$modules/$1.bc.xz" >"$room/module.bc"
}

# retarget NAME TRIPLE: a kept module as text for another machine. Attributes that name a processor go, and so does the stack's probe where
# the machine has its own, or none.
retarget() {
  local gone='"target-cpu"="[^"]*" ?|"target-features"="[^"]*" ?|"tune-cpu"="[^"]*" ?'
  [ "$2" = aarch64-unknown-linux-gnu ] || gone+='|"probe-stack"="[^"]*" ?|"stack-probe-size"="[^"]*" ?'
  module "$1"
  "$clang" --target=x86_64-unknown-linux-gnu -S -emit-llvm -Xclang -disable-llvm-passes -x ir "$room/module.bc" -o "$room/text"
  sed -E -e "s/^target datalayout = .*/target datalayout = \"$(layout_of "$2")\"/" -e "s/^target triple = .*/target triple = \"$2\"/" \
    -e "/^attributes #/s/$gone//g" "$room/text" >"$room/module.ll"
}

# compile TRIPLE LEVEL [WORDS..]: that text as an object
compile() {
  local triple=$1 level=$2
  shift 2
  "$clang" --target="$triple" "${words[@]}" "$level" "$@" "$room/module.ll" -o "$room/module.o"
}

# the same processor: the module as it is, by the toolchain's own words, and the kit's own C
x86_64_linux_static() {
  module ipg
  "$clang" --target=x86_64-unknown-linux-gnu -march=x86-64 "${words[@]}" -mllvm -no-x86-call-frame-opt -mllvm -mergefunc-use-aliases -fPIE -O3 \
    "$room/module.bc" -o "$room/module.o"
  gcc -static "${linked[@]}" -o "$1" "$room/module.o" "$kit/c/libos_c.a" "$kit/c/liblibc_c.a"
}

aarch64_linux_static() {
  retarget ipg aarch64-unknown-linux-gnu
  compile aarch64-unknown-linux-gnu -O3 -fno-pie
  aarch64-linux-gnu-gcc -O2 -static "${linked[@]}" -o "$1" "$here/linux.c" "$here/linux-heap.c" "$room/module.o"
}

aarch64_linux_library() {
  retarget ipg_c aarch64-unknown-linux-gnu
  compile aarch64-unknown-linux-gnu -O3 -fPIC
  aarch64-linux-gnu-gcc -O2 -fPIC -shared "${linked[@]}" -Wl,-soname,libipg.so.1 "-Wl,--version-script=$top/lib/ipg.map" -o "$1" \
    "$here/linux-heap.c" "$room/module.o"
}

# for_windows NAME: a kept module and its heap as objects
for_windows() {
  retarget "$1" x86_64-w64-windows-gnu
  compile x86_64-w64-windows-gnu -O3 -march=x86-64
  "$clang" --target=x86_64-w64-windows-gnu -O2 -Werror -c -x ir "$here/windows-heap.ll" -o "$room/heap.o"
}

x86_64_windows() {
  for_windows ipg
  x86_64-w64-mingw32-gcc -O2 -static "${linked[@]}" -Wl,--no-insert-timestamp -Wl,--stack,8388608 -o "$1" "$here/windows.c" \
    "$room/heap.o" "$room/module.o"
}

x86_64_windows_library() {
  for_windows ipg_c
  { echo EXPORTS && exported; } >"$room/ipg.def"
  x86_64-w64-mingw32-gcc -O2 -static -shared "${linked[@]}" -Wl,--no-insert-timestamp -o "$1" "$room/ipg.def" "$room/heap.o" "$room/module.o"
}

# exported: the library's calls, a line for each
exported() {
  grep -o 'ipg_[a-z_]*' "$top/lib/ipg.map"
}

wasm64() {
  local builtins exports
  builtins=/usr/lib/llvm-14/lib/clang/14.0.6/lib/wasi/libclang_rt.builtins-wasm64.a
  [ -f "$builtins" ] || { echo "build: wasm64 wants Debian's libclang-rt-14-dev-wasm64, for numbers of 128 bits" >&2; return 1; }
  retarget ipg_c wasm64-unknown-unknown
  compile wasm64-unknown-unknown "${IPG_WASM_LEVEL--Os}"
  "$clang" --target=wasm64-unknown-unknown --no-default-config -ffreestanding -O2 -Werror -c "$here/wasm.c" -o "$room/wasm.o"
  ln -sf "$clang" "$room/wasm-ld"
  mapfile -t exports < <(exported && printf '%s\n' ipg_room ipg_done __stack_pointer)
  ln -sf "$clang" "$room/llvm-objcopy"
  "$room/wasm-ld" -mwasm64 --no-entry --gc-sections --strip-all --stack-first -z stack-size=8388608 "${exports[@]/#/--export=}" -o "$1" \
    "$room/module.o" "$room/wasm.o" "$builtins"
  # the linker makes a table of functions, which nothing uses; engines that have 64-bit memories and no such tables would refuse it
  "$room/llvm-objcopy" --remove-section=TABLE "$1"
}

file_of() {
  case $1 in
  x86_64-linux-static) echo ipg-static ;;
  aarch64-linux-static) echo ipg-aarch64 ;;
  x86_64-windows) echo ipg.exe ;;
  wasm64) echo ipg.wasm ;;
  aarch64-linux-library) echo libipg-aarch64.so ;;
  x86_64-windows-library) echo ipg.dll ;;
  *) echo "build: no target $1" >&2; return 1 ;;
  esac
}

# sums FILE..: of the kept files, and of what they were made of
sums() {
  (cd "$top" && sha256sum "$@" dist/*.bc.xz lib/ipg.map targets/build.sh targets/{linux,linux-heap,windows,wasm}.c targets/windows-heap.ll)
}

# sizes FILE..: in bytes, and packed by gzip
sizes() {
  local file
  for file; do echo "$file $(stat -c %s "$top/$file") $(gzip -9nc "$top/$file" | wc -c)"; done
}

# all OF..: builds some at once, each by a script of its own
all() {
  printf '%s\0' "$@" | xargs -0 -n 1 -P "${IPG_JOBS-$(nproc)}" "$here/build.sh"
}

# keep: builds all, and keeps them
keep() {
  local target files=()
  all "${targets[@]}"
  for target in "${targets[@]}"; do
    files+=("dist/$(file_of "$target")")
    cp -- "$here/out/$(file_of "$target")" "$top/dist/"
  done
  sums "${files[@]}" >"$top/dist/TARGETS"
  sizes "${files[@]}" >"$here/SIZES"
}

mkdir -p "$here/out"
case "$#-${1-}" in
0-) echo "usage: targets/build.sh --keep, or one or more of ${targets[*]}" >&2 && exit 2 ;;
1---keep) keep ;;
1-*)
  file=$(file_of "$1")
  "${1//-/_}" "$here/out/$file"
  echo "build: targets/out/$file, $(stat -c %s "$here/out/$file") bytes"
  ;;
*) all "$@" ;;
esac
