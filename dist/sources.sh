# shellcheck shell=bash disable=SC2154,SC2185
# For `ipg`, `prove` and the checks: what a program is built from, and how. They set `top`, the repository's folder.
program="$top/crates/ipg/out/ipg"
# its time is when dist/ipg was last found to be built from the sources at hand; it lists the files and folders looked at
note="$top/dist/out/kept"

# own_crates NAME: a program's own crates, itself and all that it stands on, by their lines of crates.txt
own_crates() {
  awk -v program="$1" '
    { sub(/#.*/, "") }
    NF { name = $1; sub(/:$/, "", name); line[name] = $0; for (i = 2; i <= NF; i++) stands[name] = stands[name] " " $i }
    END { add(program); for (name in own) print line[name] }
    function add(name,   n, i, names) {
      if (!(name in line) || name in own) return
      own[name] = 1
      n = split(stands[name], names, " ")
      for (i = 1; i <= n; i++) add(names[i])
    }' "$top/crates.txt" | LC_ALL=C sort
}

# own_folders NAME: the folders of their sources, from the top
own_folders() {
  local crate part
  own_crates "$1" | while IFS=': ' read -r crate _; do
    for part in src specs proofs; do
      [ -d "$top/crates/$crate/$part" ] && echo "crates/$crate/$part"
    done
  done
}

# sources [NAME]: these lines for `ipg`, or for the crate that is named, and the checksum of each source
sources() {
  local name="${1-ipg}" folders
  mapfile -t folders < <(own_folders "$name")
  own_crates "$name"
  (cd "$top" && find "${folders[@]}" -type f -print0 | LC_ALL=C sort -z | xargs -0 sha256sum)
}

# whether dist/ipg was built from the sources at hand, by their sums; where it was, that is noted
is_kept() {
  # a file's time may be a tick old, so the note's is a second older than the sums
  local began=$((EPOCHSECONDS - 1))
  [ -x "$top/dist/ipg" ] && [ -f "$top/dist/SOURCES" ] && [ "$(sources)" = "$(cat "$top/dist/SOURCES")" ] || return 1
  # what can't be noted is summed again
  { mkdir -p "${note%/*}" && look -print0 >"$note.$$" && touch -d "@$began" "$note.$$" && mv -f "$note.$$" "$note"; } 2>/dev/null || true
}

# look TEST..: find, over the files and folders that a change of sources shows at
look() {
  (cd "$top" && find -L crates.txt dist/ipg dist/SOURCES dist/sources.sh crates \
    -path 'crates/*/*' ! -path 'crates/*/*/*' ! -name src ! -name specs ! -name proofs -prune -o "$@")
}

# whether that was noted, and nothing that it rests on has changed since. A file's time of change is renewed by whatever is
# done to it, also where its other time is set back; a folder's when a file comes into it or leaves.
is_kept_still() {
  local changed
  [ -s "$note" ] && [ -x "$top/dist/ipg" ] && [ -f "$top/dist/SOURCES" ] || return 1
  # a list is gone over in half the time of a walk; not each find reads one
  changed=$(cd "$top" && find -L -files0-from "$note" -maxdepth 0 -cnewer "$note" -print -quit 2>/dev/null) ||
    changed=$(look -cnewer "$note" -print -quit 2>&1)
  [ -z "$changed" ]
}

# is_built [NAME]: whether a program, `ipg` if none is named, was built here, and no source is newer, nor a folder of
# sources, which a file came into or left
is_built() {
  local name="${1-ipg}" folders
  local built="$top/crates/$name/out/$name"
  [ -x "$built" ] || return 1
  mapfile -t folders < <(own_folders "$name")
  [ -z "$(cd "$top" && find crates.txt "${folders[@]}" -newer "$built" -print -quit)" ]
}

# how many crates are proved at a time: as many as there are processors, and as half of the free memory holds at 4 GiB each
at_once() {
  awk -v most="$(nproc)" '/^MemAvailable:/ { n = int($2 / 2 ^ 23) } END { print n < 1 ? 1 : n < most ? n : most }' /proc/meminfo
}

# how many processes the system has ended for want of memory since it was started
ended_by_system() {
  awk '$1 == "oom_kill" { print $2 }' /proc/vmstat 2>/dev/null
}

# proving COMMAND..: runs a command of the kit, and shows what it says on standard error. Where it fails, and the system ended a
# process for want of memory meanwhile, it says so, and which crate was at work: the kit then names no fault.
proving() {
  local log status=0 ended
  log=$(mktemp) && ended=$(ended_by_system) || return 1
  # what it says goes to a file: a pipe whose reader lags costs a prover its verdict
  "$@" >"$log" 2>&1 </dev/null &
  local run=$!
  tail -f -n +1 --pid="$run" "$log" >&2
  wait "$run" || status=$?
  if [ "$status" -ne 0 ] && { [ "$(ended_by_system)" != "$ended" ] || grep -q 'was killed' "$log"; }; then
    echo "A prover was ended by the system, at work on $(sed -n 's/^rt: chose --jobs [0-9]* for //p; s/^== //p' "$log" | tail -n 1)," \
      "for want of memory; $(awk '/^MemAvailable:/ { print int($2 / 1024) }' /proc/meminfo) MiB are free now. Run it again when less else runs." >&2
  fi
  rm -f "$log"
  return "$status"
}

# Proves and builds the program here; what is edited meanwhile is newer than it. Where none was built yet, crates are proved
# side by side first. Whatever comes of that, `rt run` proves what isn't proved then.
build() {
  local began
  began=$(date +%s.%N)
  [ -e "$program" ] || (cd "$top/crates" && proving rt all check --jobs "$(at_once)")
  (cd "$top/crates/ipg" && proving rt run -- parse data/row.ipg data/row.bin) || return 1
  touch -d "@$began" "$program" || true
}

# the library that is kept for C and Python: what it was built from, and by which linker
library_sources() {
  ld --version | head -n 1
  sources ipg_c
}

build_library() {
  (cd "$top/crates/ipg_c" && proving rt lib) && rm -rf "$top/lib/out" && make -s -C "$top/lib" >&2
}

# needs_kit WHO WHAT: whether the toolchain is there; else says what can't be done without it, and what can. Its status is 70 then.
needs_kit() {
  command -v rt >/dev/null && return
  cat >&2 <<MISSING
$1: the toolchain is missing: there is no \`rt\` in PATH, and $2 wants it.
Without it ./install.sh installs the program and the library that are kept in dist/, and .ci/kept checks these (docs/INSTALL.md).
MISSING
  return 70
}
