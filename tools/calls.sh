# For tools/explain-fault: the calls that were active at the end of a run, and the values of variables, by the program pv_state.
# shellcheck shell=bash disable=SC2034,SC2154  # (variables of tools/explain-fault)

# Begins the run that is looked at, beside the one whose story is told, by pv_state, the program `looker`. `looking` is the number of its process; it is
# empty where the program isn't there. The words are the options of the run.
begin_look() {
  looking=''
  [ -n "$looker" ] || return 0
  begin_program "$looker" "$room/plain.c" "$@" --all >"$room/state" 2>/dev/null
  looking=$begun
}

# Waits for that run; whether it ended as the one that is told.
end_look() {
  local first=''
  [ -n "$looking" ] && wait "$looking" 2>/dev/null && IFS= read -r first <"$room/state" && [[ $first =~ ^$(report_shape "$status") ]]
}

# Says the values of the variables of the faulting statement, and the calls, each with its place. With `line` they begin a line of their own.
tell_calls() {
  local said
  said=$(ASKED=$name FRESH=$fresh COLOUR=$colour OURS=$headers/ LC_ALL=C awk -f "$here/lines.awk" -f "$here/calls.awk" "$room/state" "$source") && [ -n "$said" ] || return 0
  [ -z "$line" ] || echo >&2
  printf '%s\n' "$said" >&2
}
