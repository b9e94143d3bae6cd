# For tools/explain-fault: what a fault means in the words of the library, beside those of the report.
# shellcheck shell=bash disable=SC2154  # (variables of pvrun)

# Why a fault within a function of the headers is one, by the clause of the function's own section.
tell_library() { LC_ALL=C awk -f "$here/library.awk" "$here/clauses.txt" "$room/story" "$1" >&2; }

# Whether the pointer to what has ended was the argument of free: the report of a run in which such a pointer may be read is then that of
# the call, at the same turn.
tell_freed_twice() {
  local program=$1 report=$2 source=$3 words=() by='by free' turn written
  shift 3
  turn=${report##* turn=}
  [[ $report == 'undefined clause=6.2.4p2 reason=ended '* ]] || return 0
  while [ $# -gt 1 ]; do
    [[ $1 =~ ^--(zap|turns)$ ]] || words+=("$1" "$2")
    shift 2
  done
  attend_program "$program" run "$source" ${words[@]+"${words[@]}"} --zap off --turns "$turn" >"$room/freed" 2>/dev/null
  written=$(tail -n 1 "$room/freed" | tr -d '\000')
  [[ $written == *"undefined clause=7.22.3.3p2 reason=ended "*" turn=$turn" ]] || return 0
  # (an allocation ends by free, or where realloc is called by that)
  ! grep -vE '^(extern )?void \*realloc\(' "$source" | grep -qE '(^|[^A-Za-z_0-9])realloc[[:blank:]]*\(' || by='by free or realloc'
  printf '  the allocation is freed twice: it is the argument of free, and had ended %s before [C17 7.22.3.3p2]\n' "$by" >&2
}
