#!/usr/bin/env bash
# All stories of the studio in a headless Chromium, and ten of them in Firefox. With CI_STRICT=1 a browser that is left out fails.
#   .ci/long.d/studio.sh
# STUDIO_SLACK=N lets what is timed take N times as long as is due, on a machine that does other things too.
# matter: studio .ci/studio.py .ci/drivers.py ipg-studio dist/STUDIO dist/studio.html docs/TUTORIAL.md
set -u
cd "$(dirname "$0")/../.." || exit 1
. .ci/skips.sh
top=$PWD
. dist/sources.sh
failed=0

# left_out NAME TOOL
left_out() {
  skip "$1" "$2"
  [ "${CI_STRICT-}" != 1 ] || failed=1
}

./ipg check @gif >/dev/null || exit 1
is_built || program=dist/ipg
if command -v chromium >/dev/null && command -v chromedriver >/dev/null; then
  python3 -B .ci/studio.py dist/studio.html "$program" || failed=1
else
  left_out studio-chromium "chromium with chromedriver"
fi
if command -v firefox-esr >/dev/null; then
  python3 -B .ci/studio.py dist/studio.html "$program" --firefox || failed=1
else
  left_out studio-firefox firefox-esr
fi
exit "$failed"
