#!/usr/bin/env bash
# `help` has a text for each command of the page of the manual, and `version` names the toolchain that README names.
set -u
cd "$(dirname "$0")/../.." || exit 1
fail() {
  echo "help: $1" >&2
  exit 1
}
listed=$(./ipg help | sed -n 's/^  \([a-z]*\) .*   .*/\1/p' | grep -v '^ipg$' | sort)
known=$(sed -n '/^\.Sh SYNOPSIS/,/^\.Sh DESCRIPTION/s/^\.Cm //p' docs/ipg.1 | tr -d '|' | tr ' ' '\n' | grep . | sort -u)
[ "$listed" = "$known" ] || fail "the list has $(echo $listed), the manual $(echo $known)"
for command in $listed; do
  text=$(./ipg help "$command") || fail "$command has no text"
  [[ $text = "ipg $command"* ]] || fail "the text of $command begins with another"
  [[ $text = *$'\n\n  ipg '"$command"* ]] || fail "the text of $command has no example"
done
said=$(./ipg help nothing)
[ "$?" = 4 ] && [ "$said" = usage ] || fail "a name that is no command's isn't usage"
kit=$(./ipg version | sed -n 's/^proved with //p')
[ -n "$kit" ] && grep -qF "$kit" README.md || fail "README names another toolchain than \`version\`: $kit"
parse=$(./ipg help parse | tail -1)
[ "$(${parse/#  ipg/./ipg} | head -c 6)" = "0 Elf " ] || fail "the example of parse doesn't read"
echo "help: $(echo "$listed" | wc -l) commands"
