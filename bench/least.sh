# shellcheck shell=bash
# For the scripts beside it: the least time of five runs of a command, in microseconds, its process counted in, with
# the words after the command's name and the last line that it prints. No figure comes of a command that is not built, or
# that ends with another status than 0, or than `wants` where that is set.
least() {
  local best=999999999 said='' status from took
  [ -x "$1" ] || { echo "$1 is not built" >&2; return 1; }
  for _ in 1 2 3 4 5; do
    from=$(date +%s%N)
    status=0
    said=$("$@") || status=$?
    [ "$status" -eq "${wants-0}" ] || { echo "$*: status $status" >&2; return 1; }
    took=$((($(date +%s%N) - from) / 1000))
    if [ "$took" -lt "$best" ]; then best=$took; fi
  done
  echo "$best us  ${*:2} | ${said##*$'\n'}"
}
