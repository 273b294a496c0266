#!/usr/bin/env bash
# What grammars that ask much of `check`, a long certificate and the built-in grammars cost, and what they may. Ends with
# status 1 where one is past its goal. A run gets 8 GiB and LONGEST seconds (120).
#
#   hostile.sh [IPG]      the program, else ./ipg
set -eu
cd "$(dirname "$0")/.."
ipg=${1:-./ipg}
longest=${LONGEST:-120}
work=$(mktemp -d)
trap 'rm -rf "$work"' EXIT
past=0

# run WORDS..: status, seconds and megabytes of a run, in $work/told
run() {
  local status=0
  (ulimit -v 8388608 && exec /usr/bin/time -q -f '%e %M' -o "$work/told" timeout "$longest" "$ipg" "$@") \
    >"$work/says" 2>"$work/faults" || status=$?
  read -r seconds kilobytes < <(tail -n 1 "$work/told")
  megabytes=$((kilobytes * 1024 / 1000000))
  echo "$status $seconds $megabytes"
}

# row NAME BYTES SECONDS MEGABYTES any|answer WORDS..: runs, prints, and holds it against its goal
row() {
  local name=$1 bytes=$2 most=$3 room=$4 answer=$5 status seconds megabytes says=ok
  shift 5
  read -r status seconds megabytes < <(run "$@")
  if ! awk -v a="$seconds" -v b="$most" 'BEGIN { exit !(a <= b) }' || [ "$megabytes" -gt "$room" ]; then says=past; fi
  case $answer-$status in
  *-0 | *-2 | *-9 | any-7) ;;
  *) says=past ;;
  esac
  [ $says = ok ] || past=1
  printf '%-50s %9s %6s %7s s %6s MB   %5s s %5s MB   %s\n' "$name" "$bytes" "$status" "$seconds" "$megabytes" "$most" "$room" $says
}

printf '%-50s %9s %6s %9s %9s   %13s\n' text bytes status time memory goal
while IFS=$'\t' read -r name path most room answer; do
  row "$name" "$(stat -c %s "$path")" "$most" "$room" "$answer" check "$path"
  rm "$path"
done < <(python3 bench/hostile_texts.py "$work")

# a certificate of 300 MB, each entry of which is short: 8 bytes of memory for each of its own
printf 'S -> U8 ;\n' >"$work/small.ipg"
{
  printf 'ipgcert 2\ndead 30000000\n'
  head -n 30000000 < <(yes '0 c 1 0 0')
  printf 'cycles 0\n'
} >"$work/long"
row '`verify` of 30,000,000 short entries' "$(stat -c %s "$work/long")" 30 2400 answer verify "$work/small.ipg" "$work/long"
rm "$work/long"

# the built-in grammars together, the least of 25 rounds
least=
for ((round = 0; round < 25; round++)); do
  begun=${EPOCHREALTIME/./}
  for kind in elf pe gif pcap; do "$ipg" check "@$kind" >"$work/says"; done
  took=$((${EPOCHREALTIME/./} - begun))
  if [ -z "$least" ] || [ $took -lt "$least" ]; then least=$took; fi
done
says=ok
if [ "$least" -gt 2000 ]; then says=past past=1; fi
printf '%-50s %35s us   %10s us   %s\n' 'the built-in grammars, `check` together' "$least" 2000 $says
exit $past
