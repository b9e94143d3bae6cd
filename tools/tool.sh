# For ./pvrun: `./pvrun page ..`, `./pvrun explore ..` and `./pvrun suite ..`, the tools of these names over the programs.
# shellcheck shell=bash disable=SC2034,SC2154  # (variables of pvrun)

# The programs that a tool asks, in the array `asked`.
programs_of() {
  case $1 in
    page) asked=(pvrun pv_replay pvwhere) ;;
    explore) asked=(pvrun pv_replay) ;;
    suite) asked=(pv_suite) ;;
  esac
}

# Whether one of these words names a file that can be read, or asks for the editor, which needs none.
names_file() {
  local word
  for word; do
    [ "$word" != --listen ] || return 0
    ! can_read "$word" || return 0
  done
  return 1
}

# Calls the tool NAME by the programs that are proved and built here, by those that were installed, or with --unproved by those before their
# proofs. What is missing is proved first, but for help, for a call that says nothing, and for one that names programs itself.
tool() {
  local name=$1 asked each where=()
  shift
  command -v python3 >/dev/null || { say "$name wants a python3" && exit 125; }
  # (a python whose output or input is a folder doesn't begin)
  [ ! -d /dev/fd/1 ] || exit 12
  [ ! -d /dev/fd/0 ] || exec </dev/null
  programs_of "$name"
  other=${asked[0]}
  case " $* " in
    '  ' | *' -h '* | *' --help '* | *' --program'*) ;;
    *)
      names_file "$@" || is_ready "$other" || [ -n "$unproved" ] || { say 'no argument names a file that can be read; so nothing is proved or run' && exit 125; }
      for each in "${asked[@]}"; do find_beside "$each"; done
      if [ -n "$installed$unproved" ]; then
        where=(--programs "${found%/*}")
        [ "$name" != suite ] || where=(--program "$found")
      fi
      ;;
  esac
  attend python3 "$tools/$name" ${where[@]+"${where[@]}"} "$@"
  exit
}
