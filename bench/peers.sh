#!/usr/bin/env bash
# Times `json` and `view` of a capture of 10,000 packets beside what other readers of captures write, in turns, output to nowhere: tshark's
# JSON, and fq's tree and JSON. A reader that is not installed is left out. IPG may name another program than the one that ./ipg runs.
set -eu
cd "$(dirname "$0")/.."
. bench/program.sh
work=$(mktemp -d)
trap 'rm -rf "$work"' EXIT
python3 bench/files.py pcap 10000 >"$work/capture"

# beside COMMAND PEER..: a command of ours beside one of theirs
beside() {
  local command=$1
  shift
  if command -v "$1" >/dev/null; then
    python3 bench/turns.py --goal 1 "$command of 10,000 packets, beside ${*/"$work/capture"/}" "$ipg" "$command" @pcap "$work/capture" -- "$@"
  else
    echo "$1 is not installed"
  fi
}

beside json tshark -r "$work/capture" -T json
beside json fq -d pcap tojson "$work/capture"
beside view fq -d pcap d "$work/capture"
