# For ./pvrun, tools/preprocess and tools/explain-fault: commands that end with the shell that began them, and what is said of a program that a
# signal ended. A shell that waits for a command hears of a signal only when that command has ended, so what may take long is a job here.
# shellcheck shell=bash disable=SC2064,SC2154

# Runs a command with this shell's standard input. Its status is the command's, and 128 + N where signal N ended that.
#
# A job of a script ignores INT and has an empty input where nobody undoes it; and what bash says itself of one that a signal ended is left out.
attend() {
  if { : <&0; } 2>/dev/null; then
    (trap - INT QUIT TERM HUP PIPE && exec "$@") <&0 &
  else
    (trap - INT QUIT TERM HUP PIPE && exec "$@") <&- &
  fi
  wait "$!" 2>/dev/null
}

# The same for a program of the project. Unless the caller says otherwise, its C library asks for large pages, where the system gives them: each
# page that is met for the first time costs some two microseconds, and the tables of a long source are thousands of small ones. And it moves a
# block of four megabytes or more as a whole where that grows. Left to itself it does so only until the first one is given back; then it copies
# the tables of a long source again and again, and keeps the room that they leave: a quarter more memory. What is free behind all else is kept
# up to 64 megabytes, as it would be then.
attend_program() { with_memory attend "$@"; }

with_memory() {
  GLIBC_TUNABLES=${GLIBC_TUNABLES:-glibc.malloc.hugetlb=1} \
    MALLOC_MMAP_THRESHOLD_=${MALLOC_MMAP_THRESHOLD_:-4194304} MALLOC_TRIM_THRESHOLD_=${MALLOC_TRIM_THRESHOLD_:-67108864} "$@"
}

# Begins a program of the project, without an input, and goes on beside it: `begun` is the number of its process, which ends with this shell.
begin_program() { with_memory begin "$@"; }

begin() {
  (trap - INT QUIT TERM HUP PIPE && exec "$@") </dev/null &
  begun=$!
}

# The same for a command with children that hear of no signal: all of them are one group.
attend_group() {
  set -m
  "$@" &
  set +m
  wait "$!" 2>/dev/null
}

# Lets INT, TERM and HUP end this shell when what it began has ended. `leave` is what it does whenever it ends: it removes what it made.
hear_signals() {
  local name
  trap leave EXIT
  for name in INT TERM HUP; do
    trap "end_by $name" "$name"
  done
}

# Ends what this shell began, and then this shell, by the signal that came.
#
# What a program's output goes through is no job: it ends when nobody writes to it any more, and so when this shell has ended, at the latest. What hands
# on a run's output is ended too (`handing`).
end_by() {
  local job began
  trap '' INT TERM HUP
  mapfile -t began <<<"$(jobs -p)"
  for job in "${began[@]}" ${handing-}; do
    kill -TERM -- "-$job" 2>/dev/null || kill -TERM "$job" 2>/dev/null
  done
  wait "${began[@]}" 2>/dev/null
  leave
  trap - EXIT INT TERM HUP
  kill -s "$1" "$BASHPID"
}

# How many kilobytes of stack are enough for every program, with room to spare.
stack_enough=1024

# A program with checks at run time takes some twenty times the stack of a proved one. Gives it what the source of the greatest depth
# needs with room to spare, or as much as this shell may.
give_trial_stack() {
  local stack wanted=262144
  stack=$(ulimit -S -s)
  [ "$stack" = unlimited ] || [ "$stack" -ge "$wanted" ] ||
    ulimit -S -s "$wanted" 2>/dev/null || ulimit -S -s "$(ulimit -H -s)" 2>/dev/null || :
}

# Whether what this shell called has taken the time that it may, by its hard limit: the system ends it by KILL then.
has_passed() {
  local most user system
  most=$(ulimit -H -t)
  [ "$most" != unlimited ] && hold && times >"$held/times" || return
  { read -r _ _ && read -r user system; } <"$held/times"
  [ $((${user%%m*} * 60 + $(cut -d. -f1 <<<"${user#*m}") + ${system%%m*} * 60 + $(cut -d. -f1 <<<"${system#*m}") + 1)) -ge "$most" ]
}

# Says which signal ended the program, by its status, and what that comes from where it is known.
tell_signal() {
  local name stack why=''
  name=$(kill -l "$1")
  stack=$(ulimit -s)
  case $name in
    SEGV | BUS)
      [ "$stack" = unlimited ] || [ "$stack" -ge "$stack_enough" ] ||
        why=": its stack was full, since 'ulimit -s' is $stack kilobytes here, and $stack_enough are enough"
      ;;
    KILL) if has_passed; then why=": the time that 'ulimit -t' gives had passed"; else why=', as a machine does that has no memory left'; fi ;;
    XCPU) why=": the time that 'ulimit -t' gives had passed" ;;
  esac
  say "the program was ended by the signal $name$why; so there is no report"
}
