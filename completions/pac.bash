# Completes the words of `pac` in bash. It is to be sourced, or to lie with the system's other completions, named `pac`.

_pac() {
  local -A options=(
    [map]="--batch --names --fuel --my-ip --zone --now"
    [resolve]="--batch --server --second --wait --tries --fuel --my-ip --zone --now"
    [check]=""
    [ask]="--server --second --wait --tries"
    [generate]=""
  )
  local command=${COMP_WORDS[1]} word=${COMP_WORDS[COMP_CWORD]} before=${COMP_WORDS[COMP_CWORD - 1]}
  # bash takes `--names=FILE` for three words.
  if [ "$word" = = ]; then
    word=
  elif [ "$before" = = ]; then
    before=${COMP_WORDS[COMP_CWORD - 2]}
  fi
  COMPREPLY=()
  case "$COMP_CWORD $before $word" in
  "1 "*) _pac_offer -W "${!options[*]}" ;;
  *" --names "* | *" --batch "*) _pac_offer -f ;;
  *" --zone "*) _pac_offer -W UTC ;;
  *" --"?*" "*) ;;
  *" "-*) _pac_offer -W "${options[$command]}" ;;
  *) [[ $command != @(map|resolve|check) ]] || _pac_offer -f ;;
  esac
}

# Offers those words of a list, or those names of files, that begin with the word so far.
_pac_offer() {
  [ "$1" != -f ] || compopt -o filenames 2>/dev/null
  mapfile -t COMPREPLY < <(compgen "$@" -- "$word")
}

complete -F _pac pac
