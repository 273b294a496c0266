#!/usr/bin/env bash
# When each long check of .ci/long was last seen to pass, and whether what it is about has changed since. With CI_STRICT=1 one that was never
# seen, or over other files, fails.
set -u
cd "$(dirname "$0")/../.." || exit 1
. .ci/matter.sh
failed=0
for script in .ci/long.d/*.sh; do
  name=$(basename "$script" .sh)
  read -r _ day sum < <(grep "^$name " .ci/long.seen 2>/dev/null)
  if [ -z "${day-}" ]; then
    echo "long: $name was never seen to pass"
    [ "${CI_STRICT-}" != 1 ] || failed=1
  elif [ "$sum" = "$(sum_of_matter "$name")" ]; then
    echo "long: $name passed on $day"
  else
    echo "long: $name passed on $day, over other files"
    [ "${CI_STRICT-}" != 1 ] || failed=1
  fi
done
exit "$failed"
