# shellcheck shell=bash
# Completion of `ipg-open` for bash: options, files.
_ipg_open() {
  local word=${COMP_WORDS[COMP_CWORD]}
  COMPREPLY=()
  case $word in -*) mapfile -t COMPREPLY < <(compgen -W "-l -a --partial --color=auto --color=always --color=never" -- "$word") ;; esac
  [ "${#COMPREPLY[@]}" -gt 0 ] || mapfile -t COMPREPLY < <(compgen -f -- "$word")
}
complete -o filenames -F _ipg_open ipg-open
