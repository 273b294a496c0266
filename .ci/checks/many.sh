#!/usr/bin/env bash
# Many files by GNU parallel: on this machine, and over two hosts that are this machine by ssh, as docs/MANY.md has it.
set -u
top="$(readlink -f "$(dirname "$0")/../..")"
cd "$top" || exit 1
. .ci/skips.sh
for tool in parallel ssh ssh-keygen /usr/sbin/sshd rsync python3; do
  command -v "$tool" >/dev/null || {
    skip many "$tool"
    exit 0
  }
done
. dist/sources.sh
./ipg check @gif >/dev/null || exit 1
is_built || program="$top/dist/ipg"
folder=$(mktemp -d) || exit 1
daemon=
trap '[ -z "$daemon" ] || kill "$daemon"; rm -rf "$folder"' EXIT
failed=0

# Two names for this machine, on the loopback address, with keys of their own.
hosts() {
  local port=$((20000 + $$ % 20000))
  ssh-keygen -q -t ed25519 -N '' -f "$folder/host" && ssh-keygen -q -t ed25519 -N '' -f "$folder/key" || return 1
  printf '%s\n' "Port $port" 'ListenAddress 127.0.0.1' 'ListenAddress 127.0.0.2' "HostKey $folder/host" 'PidFile none' \
    "AuthorizedKeysFile $folder/key.pub" 'StrictModes no' 'UsePAM no' 'PasswordAuthentication no' \
    'MaxStartups 1000' 'LoginGraceTime 0' >"$folder/sshd"
  printf '%s\n' 'Host one' '  HostName 127.0.0.1' 'Host two' '  HostName 127.0.0.2' 'Host *' "  Port $port" \
    "  IdentityFile $folder/key" '  StrictHostKeyChecking no' '  UserKnownHostsFile /dev/null' '  LogLevel ERROR' >"$folder/ssh"
  /usr/sbin/sshd -D -f "$folder/sshd" -E "$folder/log" &
  daemon=$!
  for _ in 1 2 3 4 5 6 7 8 9 10; do
    ssh -F "$folder/ssh" one true 2>/dev/null && return
    sleep 0.3
  done
  return 1
}

# by WORDS..: parallel with these words over the corpus; prints what it prints, in order
by() {
  (cd "$folder/work" && find corpus -type f -print0 | parallel --will-cite -0 --ssh "ssh -F $folder/ssh" "$@" 2>&1 | sort)
}

# trees NAME GOT: each sample but the two that are PNG images was told with status 1, and those two have the right tree
trees() {
  local name
  for name in png second; do
    cmp -s "$folder/png.tree" "$folder/work/$1/corpus/$name" || failed=1
  done
  [ "$2" = "$due" ] && [ "$(find "$folder/work/$1" -type f | wc -l)" -eq 2 ] || failed=1
  [ "$failed" -eq 0 ] || printf 'many: %s\n%s\n' "$1" "$2"
}

export PARALLEL_HOME="$folder/parallel"
mkdir -p "$PARALLEL_HOME" "$folder/work/corpus"
cp -r formats "$folder/work/formats"
python3 -B formats/samples.py "$folder/work/corpus"
cp "$folder/work/corpus/png" "$folder/work/corpus/second"
"$program" parse formats/png.ipg "$folder/work/corpus/png" >"$folder/png.tree" || exit 1
due=$(cd "$folder/work" && find corpus -type f ! -name png ! -name second | sed 's/^/1 /' | sort)
each="IPG='$program' sh formats/each.sh formats/png.ipg"

trees here "$(by -n 10 "$each here {}")"
# sshd wants this folder where it runs as root
if [ "$(id -u)" = 0 ]; then mkdir -p /run/sshd; fi
if hosts; then
  trees shared "$(by -n 10 -S 2/one,2/two --wd "$folder/work" "$each shared {}")"
  rm -f "$folder/work/corpus/"[!ps]* "$folder/work/corpus/pcapng" "$folder/work/corpus/sqlite"
  got=$(by -S 2/one,2/two --bf formats/png.ipg --trc {}.tree "'$program' parse formats/png.ipg {} >{}.tree")
  for name in png second; do
    [ -z "$got" ] && cmp -s "$folder/png.tree" "$folder/work/corpus/$name.tree" || failed=1
  done
  [ "$failed" -eq 0 ] || printf 'many: files that are sent, and their trees that come back\n%s\n' "$got"
else
  skip many-ssh "an sshd that this user may run: $(tail -n 1 "$folder/log")"
fi
[ "$failed" -eq 0 ] && echo "many: a corpus by parallel, here and over two hosts"
exit "$failed"
