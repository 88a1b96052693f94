# Completion of netm and netm_tell for bash.
_netm() {
  local word=${COMP_WORDS[COMP_CWORD]} before=${COMP_WORDS[COMP_CWORD - 1]}
  if [ "$before" = --journal ] || [ "$before" = = ]; then
    mapfile -t COMPREPLY < <(compgen -f -- "${word#=}")
  elif [ "$COMP_CWORD" -eq 1 ] && [ "${COMP_WORDS[0]##*/}" = netm_tell ]; then
    mapfile -t COMPREPLY < <(compgen -W "explain" -- "$word")
  elif [ "$COMP_CWORD" -eq 1 ]; then
    mapfile -t COMPREPLY < <(compgen -W "check replay journal" -- "$word")
  elif [ "${COMP_WORDS[1]}" = replay ] || [ "${COMP_WORDS[1]}" = journal ]; then
    mapfile -t COMPREPLY < <(compgen -W "--journal" -- "$word")
  fi
}
complete -F _netm netm netm_tell
