# shellcheck shell=bash disable=SC2034
# For the scripts beside it, which run from the repository's folder: `ipg` is the program that IPG names, else the one that
# `./ipg` runs.
top=$PWD
. dist/sources.sh
if [ -n "${IPG-}" ]; then
  ipg=$IPG
elif is_built; then
  ipg=$program
elif is_kept; then
  ipg=dist/ipg
else
  echo "the program is not built: run ./prove, or name one by IPG" >&2
  exit 1
fi
