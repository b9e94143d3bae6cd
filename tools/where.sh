# For ./pvrun: `./pvrun where FILE ..`, the calls and the values where a run stands, by the program pv_state.
# shellcheck shell=bash disable=SC2034,SC2154  # (variables of pvrun)

# The words, as those of a settled run: `--all` goes to `all`, and the words behind the options, which are places, to `places`.
read_where() {
  local words=("${@:1:1}") twice=''
  [ $# = 0 ] || shift
  while [[ ${1-} == -* ]]; do
    case $1 in
      --all)
        [ -z "$all" ] || twice='--all stands twice'
        all=--all
        shift
        ;;
      --args) words+=("$@") && set -- ;;
      --raw | --lower | --quiet | --leaks | -[IDU]?*) words+=("$1") && shift ;;
      *) words+=("${@:1:2}") && shift $(($# < 2 ? 1 : 2)) ;;
    esac
  done
  places=("$@")
  read_beside where '' ${words[@]+"${words[@]}"}
  [ -z "$twice" ] || slip=$twice
  [ -n "$slip" ] || read_places
}

# Each place is the end, or a turn within the bound.
read_places() {
  local i place bound=1000000
  for ((i = 0; i < ${#handed[@]}; i += 2)); do [ "${handed[i]}" != --turns ] || bound=${handed[i + 1]}; done
  [ "${#places[@]}" -le 16 ] || slip='where takes at most 16 places'
  for place in ${places[@]+"${places[@]}"}; do
    [ "$place" = end ] || [[ $place =~ ^[1-9][0-9]{0,8}$ && $place -le $bound ]] ||
      slip="'$place' is no place: end, or a turn from 1 to $bound (options stand before places)"
  done
}

where() {
  local all='' places=() like=settle
  other=pv_state
  read_where "$@"
  [ -z "$slip" ] || refuse_beside "$slip"
  [ -z "$keep" ] || guard_files
  take_files
  [ -z "$unread" ] || refuse_beside "'$unread' could not be read" "$source" ${handed[@]+"${handed[@]}"}
  find_beside pv_state
  attend_program "$found" "$text" ${handed[@]+"${handed[@]}"} ${all:+"$all"} ${places[@]+"${places[@]}"}
  end_beside "$?"
}
