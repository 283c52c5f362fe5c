# Completions of limuvosel for bash.
_limuvosel() {
  local commands="create session history send replica-create replica-load apply replica-export"
  if [ "$COMP_CWORD" -eq 1 ]; then
    mapfile -t COMPREPLY < <(compgen -W "$commands help --help" -- "${COMP_WORDS[1]}")
  elif [ "$COMP_CWORD" -eq 2 ] && [ "${COMP_WORDS[1]}" = help ]; then
    mapfile -t COMPREPLY < <(compgen -W "$commands" -- "${COMP_WORDS[2]}")
  fi
}
complete -F _limuvosel limuvosel
