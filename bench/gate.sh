#!/usr/bin/env bash
# Reads a log of `rt ci`, from the file that is named or else from standard input, and prints what it tells of each crate:
# whether the crate and its tests were proved, or kept from an earlier run, and the tests passed; how many must-fail edits
# this run tried, how many are kept from earlier ones, and how many of all were refused; and what failed, by name. (A bad
# edit is named too, and fails nothing.) `-` is what the log says nothing of, or not yet.
# Of a log whose lines begin with a number of seconds and a space, as `{ echo; rt ci; } | ts %s` writes it, it tells also
# how many seconds after the first line a crate was proved.
# Ends with 1 where the log has no last line `N passed, M failed`, whatever M is.
set -u
[ $# -eq 0 ] || exec <"$1" || exit 1
exec awk '
  NR == 1 { timed = /^[0-9]+(\.[0-9]+)?( |$)/ && !/^[0-9]+ passed, [0-9]+ failed/ }
  timed && match($0, /^[0-9]+(\.[0-9]+)?( |$)/) {
    now = $1 + 0
    if (NR == 1) begun = now
    $0 = substr($0, RLENGTH + 1)
  }
  /^[0-9]+ passed, [0-9]+ failed/ { ended = $0 }
  /^(==|rt:) / { ended = "" }
  /^rt: [A-Za-z0-9_]+ proved$/ { proof[crate($2)] = "proved"; at[$2] = now - begun }
  /^rt: [A-Za-z0-9_]+ is kept: / { proof[crate($2)] = "kept" }
  /^rt: [A-Za-z0-9_]+ NOT PROVED/ { proof[crate($2)] = "failed"; fails($2, "proof") }
  /^rt: [A-Za-z0-9_]+: its tests (are )?(proved|passed)$/ { tests[crate($2)] = $NF; test_proofs += $NF == "proved" }
  /^rt: [A-Za-z0-9_]+: its tests (are NOT PROVED|FAILED)$/ { tests[crate($2)] = "failed"; fails($2, "tests") }
  /^rt: [A-Za-z0-9_]+: trying its must-fail edits / { tried[crate($2)] = substr($NF, 2) + 0 }
  /^rt: [A-Za-z0-9_]+: [0-9]+ of its [0-9]+ must-fail edits were tried by an earlier run/ { kept[crate($2)] = $3 }
  /^rt: must-fail [A-Za-z0-9_]+\/[^ ]+: / {
    split($3, edit, /[\/:]/)
    told[crate(edit[1])]++
    if ($4 == "refused,") refused[edit[1]]++
    else fails(edit[1], edit[2] ($4 == "BAD" ? " (bad)" : ""))
  }
  /^rt: crates\/[A-Za-z0-9_]+\/must-fail\/.+: BAD EDIT: / {
    split($2, edit, "/")
    sub(/^rt: crates\/[^\/]+\/must-fail\//, "")
    sub(/: BAD EDIT: .*/, "")
    fails(edit[2], $0 " (bad)")
  }
  /^rt: FAILED: / {
    for (i = 3; i <= NF; i++) {
      split($i, edit, "/")
      if ($(i + 1) ~ /^\((tests|run)\)$/) { fails($i, substr($(i + 1), 2, length($(i + 1)) - 2)); i++ }
      else if (edit[2] != "") fails(edit[1], edit[2])
      else if (!(crate($i) in failed)) fails($i, "proof or tests")
    }
  }
  END {
    line("crate", "proof", "tests", "tried", "kept", "refused", "seconds", "failed")
    for (i = 1; i <= crates; i++) {
      name = names[i]
      if (name in told) tried[name] = told[name] - kept[name]
      line(name, shown(proof, name), shown(tests, name), shown(tried, name), shown(kept, name), shown(refused, name), \
        name in at ? int(at[name] + 0.5) : "-", failed[name])
      proofs[proof[name]]++
      runs[tests[name]]++
      all_tried += tried[name]; all_kept += kept[name]; all_refused += refused[name]
    }
    printf "%d crates: %d proved, %d kept, %d failed; tests: %d proved, %d passed, %d failed; ", crates, proofs["proved"], \
      proofs["kept"], proofs["failed"], test_proofs, runs["passed"], runs["failed"]
    printf "edits: %d tried, %d kept, %d refused; %s%s\n", all_tried, all_kept, all_refused, timed ? int(now - begun + 0.5) " s; " : "", \
      ended != "" ? ended : "the log has no last line"
    exit ended == ""
  }
  # the name alone, which has a row from now on
  function crate(name) {
    sub(/:$/, "", name)
    if (!(name in known)) { known[name] = 1; names[++crates] = name }
    return name
  }
  function fails(name, what) {
    name = crate(name)
    if (index(", " failed[name] ", ", ", " what ", ") == 0) failed[name] = failed[name] (failed[name] == "" ? "" : ", ") what
  }
  function shown(of, name) { return name in of ? of[name] : "-" }
  function line(name, proof, tests, tried, kept, refused, seconds, failed,   row) {
    row = sprintf("%-16s %-7s %-7s %5s %5s %8s", name, proof, tests, tried, kept, refused) (timed ? sprintf(" %8s", seconds) : "")
    row = row "  " failed
    sub(/ +$/, "", row)
    print row
  }'
