# For ./pvrun: journals of runs, `./pvrun replay write FILE ..` and `./pvrun replay check FILE`, by the program pv_replay.
# shellcheck shell=bash disable=SC2034,SC2154  # (variables of pvrun)

write_journal() {
  read_beside 'replay write' '--zap --watch' "$@"
  [ -z "$slip" ] || refuse_beside "$slip" write "$@"
  [ -z "$keep" ] || guard_files
  take_files
  [ -z "$unread" ] || refuse_beside "'$unread' could not be read" write "$source" ${handed[@]+"${handed[@]}"}
  find_beside pv_replay
  attend_program "$found" write "$text" ${handed[@]+"${handed[@]}"}
  end_beside "$?"
}

check_journal() {
  [ $# = 1 ] || refuse_beside 'replay check wants one file, and no other argument' check "$@"
  [ -n "$1" ] || refuse_beside 'the name of the file is empty' check "$@"
  can_read "$1" || refuse_beside "'$1' could not be read" check "$@"
  find_beside pv_replay
  attend_program "$found" check "$1"
  end_beside "$?"
}

replay() {
  other=pv_replay
  case ${1-} in
    write) write_journal "${@:2}" ;;
    check) check_journal "${@:2}" ;;
    *) refuse_beside 'replay writes or checks: pvrun replay write FILE, pvrun replay check FILE' "$@" ;;
  esac
}
