#!/usr/bin/env bash
# The whole list of commands by each kept build for another machine, beside the kept program, and the page in browsers. With CI_STRICT=1 one that
# is left out fails.
#   .ci/long.d/targets.sh [TARGET..]     page-chromium and page-firefox are targets too
# matter: targets dist/ipg dist/TARGETS
set -u
cd "$(dirname "$0")/../.." || exit 1
. .ci/skips.sh
failed=0
[ $# -gt 0 ] || CI_LONG=1 bash .ci/checks/targets.sh || failed=1
[ $# -gt 0 ] || set -- x86_64-linux-static wasm64-node wasm64-chromium wasm64-firefox x86_64-windows x86_64-windows-library \
  aarch64-linux-static aarch64-linux-library page-chromium page-firefox
targets=() pages=()
for target in "$@"; do
  case $target in
  page-*) pages+=("${target#page-}") ;;
  *) targets+=("$target") ;;
  esac
done

# seen NAME COMMAND..: a command that ends with 3 where it leaves something out
seen() {
  local name=$1
  shift
  "$@"
  case $? in
  0) ;;
  3)
    skip "$name" "a target's file in dist/, or what runs it"
    [ "${CI_STRICT-}" != 1 ] || failed=1
    ;;
  *) failed=1 ;;
  esac
}
# the list is made once for all targets
[ "${#targets[@]}" -eq 0 ] || seen targets-list python3 -u targets/runs.py --in dist "${targets[@]}"
[ "${#pages[@]}" -eq 0 ] || seen targets-page python3 targets/page_test.py --in dist "${pages[@]}"
exit "$failed"
