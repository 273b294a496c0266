# shellcheck shell=bash
# Completion of `ipg-studio` for bash: option, grammars, files.
_ipg_studio() {
  local word=${COMP_WORDS[COMP_CWORD]}
  COMPREPLY=()
  case $word in -*) mapfile -t COMPREPLY < <(compgen -W "--export" -- "$word") ;; esac
  [ "${#COMPREPLY[@]}" -gt 0 ] || mapfile -t COMPREPLY < <(compgen -f -- "$word")
}
complete -o filenames -F _ipg_studio ipg-studio
