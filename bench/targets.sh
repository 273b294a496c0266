#!/usr/bin/env bash
# The same files by each target and by the kept program, in one run: the least time of some rounds in turns (of a processor; in browsers by the
# clock), and the peak of memory. Of arm64 under qemu no time is told.
#   bench/targets.sh [FOLDER]     the targets' files, else those in targets/out/ or dist/
# The module by -O3 is measured beside the one that is kept, where it was built:
#   IPG_WASM_LEVEL=-O3 targets/build.sh wasm64 && mv targets/out/ipg.wasm targets/out/ipg-O3.wasm
set -eu
cd "$(dirname "$0")/.."
exec python3 targets/speed.py "$@"
