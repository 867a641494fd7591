# Completion of puttyppk in bash: the two words that it takes.

_puttyppk() {
  local current=${COMP_WORDS[COMP_CWORD]} offered="--help --version" signs='^[<>&|]+$' i

  # One word is all that the program takes; redirections and their files are none.
  for ((i = 1; i < COMP_CWORD; i++)); do
    if [[ ! ${COMP_WORDS[i]} =~ $signs ]]; then
      offered=""
    elif ((i < COMP_CWORD - 1)); then
      ((i += 1))
    else
      compopt -o filenames 2>/dev/null
      mapfile -t COMPREPLY < <(compgen -f -- "$current")
      return
    fi
  done

  mapfile -t COMPREPLY < <(compgen -W "$offered" -- "$current")
}

complete -F _puttyppk puttyppk
