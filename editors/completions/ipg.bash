# shellcheck shell=bash
# Completion of `ipg` for bash: commands, formats, files, options.
_ipg() {
  local word=${COMP_WORDS[COMP_CWORD]} before=${COMP_WORDS[COMP_CWORD - 1]} choices=""
  COMPREPLY=()
  case $before in
    --memo) choices="on off" ;;
    --arena) choices="1 64 512 4096" ;;
  esac
  if [ -z "$choices" ]; then
    case ${COMP_WORDS[1]}:$COMP_CWORD in
      *:1) choices="parse query check cert verify table load cover rebuild edit json view fmt trial explain formats help version" ;;
      trial:2) choices="elf pe gif pcap" ;;
      help:2) choices="parse query check cert verify table load cover rebuild edit json view fmt trial explain formats help version" ;;
      parse:2 | query:2 | check:2 | explain:2 | cert:2 | verify:2 | table:2 | cover:2 | rebuild:2 | edit:2 | json:2 | view:2 | fmt:2)
        choices=$("${COMP_WORDS[0]}" formats 2>/dev/null | cut -d " " -f 1)
        choices=${choices:-@elf @pe @gif @pcap}
        ;;
      parse:* | json:* | view:*) case $word in -*) choices="--memo --arena" ;; esac ;;
      explain:*) case $word in -*) choices="--arena" ;; esac ;;
    esac
  fi
  mapfile -t COMPREPLY < <(compgen -W "$choices" -- "$word")
  if [ "$COMP_CWORD" -gt 1 ] && [ "${COMP_WORDS[1]}" != trial ] && [ "${#COMPREPLY[@]}" -eq 0 ]; then
    mapfile -t COMPREPLY < <(compgen -f -- "$word")
  fi
}
complete -o filenames -F _ipg ipg
