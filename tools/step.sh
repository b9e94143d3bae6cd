# For ./pvrun: `./pvrun step FILE [--script F]`, a run turn by turn, by the program pv_step and tools/step over it.
# shellcheck shell=bash disable=SC2034,SC2154  # (variables of pvrun)

step() {
  local stepper replayer='' state=''
  other=pv_step
  read_beside step '--zap --watch --turns' "$@"
  [ -z "$slip" ] || refuse_beside "$slip"
  [ -z "$keep" ] || guard_files
  take_files
  [ -z "$unread" ] || refuse_beside "'$unread' could not be read" "$unread" /dev/null
  # (a python whose input or output is a folder doesn't begin)
  [ ! -d /dev/fd/1 ] || exit 12
  [ ! -d /dev/fd/0 ] || { say 'commands come from standard input, which is a folder' && exit 11; }
  command -v python3 >/dev/null || { say 'step wants a python3' && exit 125; }
  find_beside pv_step
  stepper=$found
  # what shows the lines of the source beside the turns is asked only where it is there
  if [ -n "$unproved" ] || is_ready pv_replay; then
    find_beside pv_replay
    replayer=$found
  fi
  # (and so it is with what tells calls and values)
  if [ -n "$unproved" ] || is_ready pv_state; then
    find_beside pv_state
    state=$found
  fi
  # (what is typed may be interrupted; that ends no session)
  trap '' INT
  attend_program python3 "$tools/step" "$stepper" "$replayer" "$state" "$text" "$source" ${handed[@]+"${handed[@]}"}
  end_beside "$?"
}
