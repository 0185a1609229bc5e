# Completes the word of `pac-lint` in bash. It is to be sourced, or to lie with the system's other completions, named
# `pac-lint`.

# Offers the names of files, for the first word alone; one that begins with a dash names none.
_pac_lint() {
  COMPREPLY=()
  [ "$COMP_CWORD" = 1 ] || return
  compopt -o filenames 2>/dev/null
  mapfile -t COMPREPLY < <(compgen -f -X "-*" -- "${COMP_WORDS[1]}")
}

complete -F _pac_lint pac-lint
