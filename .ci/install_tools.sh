#!/usr/bin/env bash
# Installs what a list of tools names and this machine lacks: with CI=true, as root, where packages can be had, and so many MB at most.
# Else, and where that fails, it says what is missing: the checks that want it say so themselves.
#   install_tools.sh [LIST [MEGABYTES]]
set -u
list=${1-$(dirname "$0")/tools}
most=${2-300}
missing=()
while read -r command package _; do
  case $command in '' | '#'*) continue ;; esac
  command -v "$command" >/dev/null || [ -e "$command" ] || missing+=("$package")
done <"$list"
[ "${#missing[@]}" -gt 0 ] || exit 0
if [ "${CI-}" != true ] || [ "$(id -u)" -ne 0 ] || ! command -v apt-get >/dev/null; then
  echo "tools: missing, and not installed: ${missing[*]}"
  exit 0
fi
export DEBIAN_FRONTEND=noninteractive
apt-get -qq update >/dev/null 2>&1 </dev/null
size=$(apt-get -qq install --no-install-recommends --print-uris -y "${missing[@]}" 2>/dev/null </dev/null | awk '{ size += $3 } END { print size + 0 }')
if [ "$size" -gt "${most}000000" ]; then
  echo "tools: missing, and more than $most MB to fetch: ${missing[*]}"
elif apt-get -qq install --no-install-recommends -y "${missing[@]}" >/dev/null 2>&1 </dev/null; then
  echo "tools: installed ${missing[*]}"
else
  echo "tools: missing, and they could not be installed: ${missing[*]}"
fi
exit 0
