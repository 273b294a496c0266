#!/usr/bin/env bash
# The steps of .github/workflows that want no toolchain, in a clean clone, one by one as a host runs them; but for those that install packages.
# matter: .github/workflows .ci/kept install.sh
set -u
cd "$(dirname "$0")/../.." || exit 1
folder=$(mktemp -d) || exit 1
trap 'rm -rf "$folder"' EXIT
git clone -q . "$folder/clone" || exit 1
count=0
# the job `kept` ends where the next one begins
while read -r step; do
  case $step in apt-get*) continue ;; esac
  count=$((count + 1))
  (cd "$folder/clone" && env -i PATH=/usr/sbin:/usr/bin:/sbin:/bin HOME="$folder" LC_ALL=C.UTF-8 bash -c "$step") </dev/null || {
    echo "workflows: failed: $step"
    exit 1
  }
done < <(sed -n '/^  kept:/,/^  gate:/s/^ *- run: //p' .github/workflows/checks.yml)
echo "workflows: $count steps as a host runs them"
[ "$count" -ge 2 ]
