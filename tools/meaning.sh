# For ./pvrun: what is said in words on standard error behind the program's answer, which stands as it is.
# shellcheck shell=bash disable=SC1091,SC2034,SC2086,SC2154  # (variables of pvrun)

# Behind a refusal: where it is, and hints of what is refused.
show_place() {
  local shown
  shown=$(find_place)
  # (a pipe is told by its own name, and not by that of the file that holds what it had)
  [ "$text" = "$source" ] || shown=${shown/#"$text:"/"$source:"}
  case ${shown%%$'\n'*} in
    *'refused: size' | *'refused: main') tell_place "$shown" && return ;;
  esac
  if command -v python3 >/dev/null; then
    attend python3 "$tools/spot" "$program" "$text" "$source" "$shown" >&2 || tell_place "$shown"
  else
    tell_place "$shown"
    say 'hint: without python3 the statement is not looked for'
  fi
  # (attributes and pragmas that mean something stand there still)
  NAME=$source NOTES='' DROP='' AWAY='' TELL=yes awk -f "$tools/extensions.awk" "$tools/extensions.txt" "$text" >&2
}

# What pvwhere says, as a compiler's message.
tell_place() { [ -z "$1" ] || printf '%s\n' "${1/: refused: /: error: refused: }" >&2; }

# What pvwhere says of the source. Where it is not built, nothing.
find_place() {
  if [ -n "$unproved" ]; then
    place=$("$tools/unproved" pvwhere) || return
  else
    is_ready pvwhere || return
  fi
  attend_program "$place" "$text"
}

# What the answer of the program means.
tell_meaning() {
  case $mode$status in
    run[1-57] | settle[1-57]) tell_run ;;
    *6) tell_run ${within_line:+--line} ;;
    *8) show_place ;;
    *10) say "hint: an argument isn't UTF-8" ;;
    *11) say "hint: '$source' could not be read" ;;
    *14) say 'hint: the run made a pair for which --sides has no letter' && tell_run ;;
  esac
}

# How a run ended, in words: its story, which is told of no run with sides, its calls, and the values of variables.
tell_run() {
  find_state
  if [ -n "$state" ] || [[ -z $sided && $status != 6 ]]; then
    attend "$tools/explain-fault" $fresh ${1+"$1"} ${state:+--state "$state"} "$program" "$text" "$source" "$status" \
      ${again[@]+"${again[@]}"} ${sided:+--sides "$sided"}
  fi
}

# The program that tells calls and values, in `state`. Where it is not built, none; for an answer beside a first proof none is compiled.
find_state() {
  state=''
  if [ -n "$unproved" ]; then
    [ -z "$meanwhile" ] && hold && attend "$tools/unproved" pv_state >"$held/state" && state=$(<"$held/state")
  elif is_ready pv_state; then
    state=${place/pvwhere\/out\/pvwhere/pv_state\/out\/pv_state}
    [ -z "$installed" ] || state=$installed/pv_state
  fi
}

# Which allocations were never freed, by the journal of the run (whose options --zap is none of).
tell_leaks() {
  local i options=()
  command -v python3 >/dev/null || { say 'without python3 leaks are not looked for' && return; }
  for ((i = 0; i < ${#again[@]}; i += 2)); do
    [ "${again[i]}" = --zap ] || options+=("${again[@]:i:2}")
  done
  . "$tools/beside.sh"
  other=''
  find_beside pv_replay
  attend python3 "$tools/leaks" "$found" "$text" "$source" ${options[@]+"${options[@]}"}
}

# The output alone goes to standard output, and the report to the file of --report; with --sarif alone both go to standard output. They are parted
# when the run has ended.
run_apart() {
  local begins=0 found=''
  hold
  . "$tools/report.sh"
  run >"$held/written"
  status=$?
  if [[ $mode =~ ^(run|settle)$ && $status =~ ^([0-7]|1[234])$ || $status -gt 128 ]]; then
    found=$(report_begins "$held/written" "$status")
    begins=${found:-$(wc -c <"$held/written")}
  fi
  tail -c "+$((begins + 1))" "$held/written" >"$held/report"
  if [ -n "$report$quiet" ]; then
    attend head -c "$begins" "$held/written"
  else
    write_in_lines "$held/written" "$found"
  fi || { say 'the output could not be written' && status=12; }
  [ -z "$report" ] || attend cat "$held/report" >"$report" || { say "'$report' could not be written" && status=12; }
  [ -z "$sarif" ] || write_sarif
}

# The report as SARIF, in the file of --sarif.
write_sarif() {
  command -v python3 >/dev/null || { say "without python3 '$sarif' can't be written" && status=12 && return; }
  attend python3 "$tools/suite" --of --sarif "$sarif" --program "$program" --text "$text" $fresh ${again[@]+"${again[@]}"} \
    -- "$held/report" "$source" 2>/dev/null || { say "'$sarif' could not be written" && status=12; }
}
