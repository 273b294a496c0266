#!/usr/bin/env bash
# The front door: an install into a clean folder and README's commands in their order, with nothing but the system's own path; and what
# `ipg-open` says of samples, and of files of this machine. At most 5 of 100 of these may be opened as another format than `file` tells.
set -u
cd "$(dirname "$0")/../.." || exit 1
. .ci/skips.sh
command -v python3 >/dev/null || {
  skip front python3
  exit 0
}
./ipg check @gif >/dev/null || exit 1
python3 -B .ci/front.py readme
status=$?
folder=$(mktemp -d) || exit 1
trap 'rm -rf "$folder"' EXIT
./install.sh "$folder" >/dev/null || exit 1
python3 -B .ci/front.py formats "$folder/bin/ipg" || status=1
python3 -B .ci/front.py samples "$folder/bin/ipg-open" || status=1
python3 -B .ci/front.py words "$folder/bin/ipg-open" || status=1
if command -v file >/dev/null; then
  python3 -B .ci/front.py files "$folder/bin/ipg-open" 60 || status=1
else
  skip front-files file
fi
# without the toolchain: what wants it says so, and what can be done; make's own status is 2 where its script ends with 70
bare=(env -i PATH=/usr/bin:/bin)
for due in '70 ./prove' '2 make -C lib' '70 .ci/run'; do
  read -ra words <<<"${due#* }"
  if "${bare[@]}" sh -c "command -v rt || ! command -v ${words[0]}" >/dev/null; then continue; fi
  said=$("${bare[@]}" "${words[@]}" 2>&1)
  [ "$?" = "${due%% *}" ] && [[ $said = *'there is no `rt` in PATH'*'./install.sh installs'* ]] || {
    echo "front: ${due#* } without the toolchain says: $said"
    status=1
  }
done
if command -v dash >/dev/null; then
  dash -n ipg-open || status=1
fi
exit "$status"
