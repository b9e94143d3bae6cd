# For ./pvrun: the way to a program that is not proved yet.
# shellcheck shell=bash disable=SC2154

# Proves and builds the program. Meanwhile an answer is shown before its proofs, for which the proof gives way a little.
prove_first() {
  hold
  set -m
  try_meanwhile </dev/null &
  trial=$!
  set +m
  attend nice -n 3 "$tools/prove" pvrun
  status=$?
  end_trial
  [ "$status" = 0 ] || exit "$status"
}

# Ends the trial, with all that it began.
end_trial() {
  [ -n "${trial-}" ] || return 0
  kill -TERM -- "-$trial" 2>/dev/null
  wait "$trial" 2>/dev/null
  trial=
}

# On a terminal the last line is that of the proof, which is written again.
tell_beside() {
  [ ! -t 2 ] || printf '\r\033[K' >&2
  say "$1"
}

# An answer of the program as it is before its proofs, on standard error. What is proved in a moment needs none.
try_meanwhile() {
  sleep 3
  tell_beside 'meanwhile the program is tried before its proofs: an answer in about a minute'
  unproved=yes meanwhile=yes
  program=$("$tools/unproved" pvrun 2>"$held/said") || exit
  export ASAN_OPTIONS=exitcode=125
  give_trial_stack
  {
    tell_beside 'NOT PROVED, but tried before the proofs; the proved answer follows on standard output when they are done:'
    run | sed 's/^/  /'
    status=${PIPESTATUS[0]}
    say "NOT PROVED: status $status"
    [ "$status" = 8 ] || tell_meaning
  } >&2
}

# Behind words that are none, or a file that can't be read: the program says so itself where it is there, but nothing is proved for that.
refuse() {
  local why=$1
  shift
  if [ -n "$unproved" ]; then
    program=$top/.prove/unproved/pvrun
    (cd "$top" && is_made .prove/unproved/pvrun .prove/unproved/pvrun.sources) || program=
  else
    is_ready pvrun || program=
  fi
  [ -n "$program" ] || { say "$why; so nothing is proved or run" && exit 125; }
  attend_program "$program" "$@"
  status=$?
  case $status in 10 | 11) say "hint: $why" ;; esac
  [ "$status" -le 128 ] || tell_signal "$status"
  exit "$status"
}
