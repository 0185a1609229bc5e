# Which program a command at the top of the repository runs, and how that is built. Such a command says
#
#   . tools/build.sh NAME
#   run_proved WORD..
#
# It runs the program that was proved and built here. Where that is missing, or the sources are others than those that
# it was built from, it runs the released one in prebuilt/, where that is of these sources; and where it isn't, they are
# proved and the program is built first. What fails here, and not in the program, has status 125.
shopt -s execfail
name=$1
top=$(readlink -f "$(dirname "${BASH_SOURCE[0]}")/..")

say() { echo "$name: $*" >&2; }
fail() { say "$@"; exit 125; }

# The crate of each program, and the words with which it is run once where it is built: with these it ends well.
case $name in
pac) crate=pac_main example=(resolve "$top/examples/direct.pac" http://example.com/) ;;
pac-lint) crate=pac_lint example=("$top/examples/direct.pac") ;;
*) fail "tools/build.sh knows no such program" ;;
esac
out="$top/crates/$crate/out"
program="$out/$crate"
released="$top/prebuilt/$name"

# A program has beside it the list of what it was built from, as `sources` writes it; an empty one while it is built.
list="$program.sources"

# The crates that the program stands on, each behind those below it, and its own at the end.
crates() {
  awk -v top="$crate" '
    function visit(name,  count, words, i) {
      if (!(name in below) || seen[name]++) return
      count = split(below[name], words, " ")
      for (i = 1; i <= count; i++) visit(words[i])
      print name
    }
    { sub(/#.*/, "") }
    split($0, sides, ":") == 2 { split(sides[1], words, " "); below[words[1]] = sides[2] }
    END { visit(top) }' "$top/crates.txt"
}

# Each of these crates with its line of crates.txt, and each of their files with its checksum.
sources() (
  cd "$top" && mapfile -t names < <(crates) || exit
  grep -E "^($(IFS='|'; echo "${names[*]}"))[ :]" crates.txt
  in_folders -type f -exec sha256sum {} + | LC_ALL=C sort -k 2
)

# `find` in the folders with the sources of `names`, in the top folder. Not each crate has all three.
in_folders() {
  local crates=("${names[@]/#/crates/}")
  find "${crates[@]/%//src}" "${crates[@]/%//specs}" "${crates[@]/%//proofs}" "$@" 2>/dev/null
}

# What changed since the program was built, by the time at which the system saw it: a file, or a folder by a deletion.
changes() (
  cd "$top" && mapfile -t names < <(crates) || exit
  in_folders -cnewer "$program"
  find crates.txt -cnewer "$program"
)

# Whether the program that was built here is of the sources as they stand. The gate builds it too, and leaves no list.
is_current() {
  [ -x "$program" ] || return 1
  # It comes whole, for a call beside this one.
  [ -f "$list" ] || [ -n "$(changes)" ] || { sources >"$list.$$" && mv "$list.$$" "$list"; }
  [ -f "$list" ] && [ "$(sources)" = "$(cat "$list")" ]
}

# Whether the released program is of the sources as they stand, and is what was released.
is_released() {
  [ -x "$released" ] && [ -f "$released.sources" ] && [ "$(sources)" = "$(cat "$released.sources")" ] || return 1
  (cd "$top/prebuilt" && sha256sum --check --status "$name.sum") && return
  say "prebuilt/$name is not the program that was released: its checksum is another than in prebuilt/$name.sum"
  return 1
}

# Says once in a checkout, and in each one that can't be written in at each call, that nothing was proved here.
tell_of_release() {
  local told="$out/$crate.told"
  [ ! "$told" -nt "$released" ] || return
  say "prebuilt/$name is built of these sources, proved when it was released; bash .ci/run proves it here"
  { mkdir -p "$out" && : >"$told"; } 2>/dev/null
}

# Runs a command so that an interrupt ends it too.
attend() { "$@" </dev/null & wait $!; }

# Runs `rt` in the folder of a crate.
rt_in() { cd "$top/crates/$1" && shift && exec rt "$@" >"$log" 2>&1; }

# Proves each crate and builds the program. What is edited meanwhile is not in the list.
build() {
  local names before left step below
  mapfile -t names < <(crates)
  before=$(sources)
  left=${#names[@]}
  { mkdir -p "$out" && : >"$list"; } || fail "can't write in $out"
  for below in "${names[@]}"; do
    left=$((left - 1))
    say "proving $below, $left more to go, $((SECONDS / 60)) min $((SECONDS % 60)) s so far"
    step=(lib)
    # `rt run` proves the program's own crate, builds the program and runs it.
    [ "$below" = "$crate" ] && step=(run -- "${example[@]}")
    if ! attend rt_in "$below" "${step[@]}"; then
      cat "$log" >&2
      fail "$below was not proved, or the program not built: mend what the lines above say, and call again"
    fi
  done
  [ -x "$program" ] || fail "rt run left no program in $out"
  echo "$before" >"$list"
}

# Ends what runs, and removes what is half done.
leave() {
  kill $(jobs -p) 2>/dev/null
  wait
  rm -f "$log" ${is_building:+"$program" "$list"}
}

# Builds until the program is current. One call builds at a time; the others wait, and find the program.
build_first() {
  command -v rt >/dev/null ||
    fail "the program is to be proved first, and rt is not on the path: put the toolchain there (see README.md)"
  log=$(mktemp) || fail "no file can be made in ${TMPDIR:-/tmp}"
  trap leave EXIT
  trap 'exit 129' HUP
  trap 'exit 130' INT
  trap 'exit 143' TERM
  exec 9<"$top/tools/build.sh"
  if ! flock -n 9; then
    say "waiting for another call, which builds a program"
    attend flock 9 || fail "flock is missing, which keeps two calls from building at once"
  fi
  until is_current; do
    say "the program is proved and built first; from nothing this takes an hour or more"
    is_building=yes
    build
    is_building=
  done
  trap - EXIT HUP INT TERM
  leave
  exec 9<&-
}

# Makes `program` the one to run, which is proved and built first where it has to be.
find_program() {
  if is_current; then
    return
  elif is_released; then
    tell_of_release
    program="$released"
  else
    build_first
  fi
}

# Runs the program in place of this shell.
run_proved() {
  find_program
  # Without a standard output, a socket of the program would take its number, and be sent what is to be written.
  { : 8>&1; } 2>/dev/null || exec >/dev/full
  exec "$program" "$@"
  fail "$program can't be run"
}
