# For ./pvrun: the programs beside pvrun that read a source as it does, pv_replay, pv_step and pv_state: `other` is the name of the one that is asked for.
# shellcheck shell=bash disable=SC1091,SC2154

# The words behind `MODE FILE`, as those of a run (or of the mode that `like` names); sets what the file is taken from, and `handed` to the program's own options. Those of a run that
# stand behind are none here.
read_beside() {
  local name=$1 like=${like-run} i
  read_words "$like" "${@:3}"
  [ $# -gt 2 ] || slip="$name wants a file"
  slip=${slip/%"no option of $like"/"no option of $name"}
  slip=${slip/"and $like takes one"/"and $name takes one"}
  slip=${slip/#"$like wants"/"$name wants"}
  slip=${slip/"pvrun $like FILE"/"pvrun $name FILE"}
  [ -z "$quiet$report$sarif$errors" ] || slip="$name takes neither --quiet nor --report nor --sarif nor --stderr"
  [ -z "$leaks" ] || slip="'--leaks' is no option of $name"
  for ((i = 0; i < ${#handed[@]}; i += 2)); do
    [[ " $2 " != *" ${handed[i]} "* ]] || slip="'${handed[i]}' is no option of $name"
  done
}

# The program NAME, in `found`: the proved one, which is proved first where it isn't yet, or with --unproved as it is before its proofs.
find_beside() {
  if [ -n "$unproved" ]; then
    hold
    attend "$tools/unproved" "$1" >"$held/made" || exit
    found=$(<"$held/made")
    export ASAN_OPTIONS=exitcode=125
    [ "$1" != "$other" ] || say 'this answer is NOT PROVED: the program is tried before its proofs'
  else
    found=${program%pvrun/out/pvrun}$1/out/$1
    [ -z "$installed" ] || found=$installed/$1
    is_ready "$1" || prove_beside "$1"
  fi
}

prove_beside() {
  [ -z "$installed" ] || { say "there is no program in $installed" && exit 125; }
  attend "$tools/prove" "$1" || exit
}

# Words that are no job, and files that can't be read, are the program's to refuse; nothing is proved for them.
refuse_beside() {
  local why=$1
  shift
  is_ready "$other" || [ -n "$unproved" ] || { say "$why; so nothing is proved or run" && exit 125; }
  find_beside "$other"
  attend_program "$found" "$@"
  status=$?
  case $status in 10 | 11) say "hint: $why" ;; esac
  [ "$status" -le 128 ] || tell_signal "$status"
  exit "$status"
}

# Ends with the program's status, behind what there is to say of it: where a refusal is, or which signal ended the program.
end_beside() {
  local shown
  case $1 in
    8)
      . "$tools/meaning.sh"
      shown=$(find_place)
      [ "$text" = "$source" ] || shown=${shown/#"$text:"/"$source:"}
      tell_place "$shown"
      ;;
  esac
  [ "$1" -le 128 ] || tell_signal "$1"
  exit "$1"
}
