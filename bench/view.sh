#!/usr/bin/env bash
# Times `view` beside `parse`, in turns, output to nowhere, on files that it makes. IPG may name another program than the one that ./ipg runs.
set -eu
cd "$(dirname "$0")/.."
. bench/program.sh
work=$(mktemp -d)
trap 'rm -rf "$work"' EXIT

# measure KIND COUNT
measure() {
  python3 bench/files.py "$1" "$2" >"$work/$1"
  python3 bench/turns.py "view of $1 $2, beside parse" "$ipg" view "@$1" "$work/$1" -- "$ipg" parse "@$1" "$work/$1"
}

measure elf 60000
measure pcap 10000
measure gif 5000
