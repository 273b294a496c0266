#!/usr/bin/env bash
# The studio's kept page: it is of the files at hand, of 2,000,000 bytes at most, and its modules have their types. `.ci/long.d/studio.sh`
# tells its stories in a browser.
set -u
cd "$(dirname "$0")/../.." || exit 1
. .ci/skips.sh
failed=0
if [ ! -f dist/STUDIO ]; then
  skip studio "a page of studio/build.py --keep"
  exit 0
fi
sha256sum --quiet -c dist/STUDIO || {
  echo "studio: studio/build.py --keep wasn't run since"
  failed=1
}
[ "$(stat -c %s dist/studio.html)" -le 2000000 ] || failed=1
folder=$(mktemp -d) || exit 1
trap 'rm -rf "$folder"' EXIT
if command -v tsc >/dev/null; then
  mkdir "$folder/targets" "$folder/studio" && cp targets/ipg.d.ts "$folder/targets/ipg.d.mts" && cp studio/*.mjs studio/types.d.ts "$folder/studio" &&
    tsc --strict --noEmit --allowJs --checkJs --skipLibCheck --target es2022 --module node16 --moduleResolution node16 \
      --lib es2022,dom,dom.iterable "$folder"/studio/*.mjs "$folder/studio/types.d.ts" || failed=1
else
  skip studio-types tsc
fi
command -v python3 >/dev/null || {
  skip studio-page python3
  exit "$failed"
}
# the same files give the same bytes, where zlib is the same too
python3 -B studio/build.py "$folder/studio.html" >/dev/null && python3 -B studio/build.py "$folder/again.html" >/dev/null &&
  cmp "$folder/studio.html" "$folder/again.html" || failed=1
exit "$failed"
