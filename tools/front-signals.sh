# For tools/front: what programs are told as they begin, programs that a signal ends, launchers that one ends, the run turn by turn, and where it stands.
# shellcheck shell=bash disable=SC2016,SC2086,SC2154

# The launcher over something else in the place of pvrun.
instead() {
  rm -rf "$work/other" && cp -r "$room/installed" "$work/other"
  printf '#!/usr/bin/env bash\n%s\n' "$1" >"$work/other/lib/valumeiro/pvrun"
  launcher=("$work/other/bin/pvrun")
}

# What each mode's program is told of how memory is taken; what the caller has said of that stands.
try_memory() {
  local kept=("${launcher[@]}") mode
  instead 'echo "$MALLOC_MMAP_THRESHOLD_ $MALLOC_TRIM_THRESHOLD_ $GLIBC_TUNABLES"'
  cp "$work/other/lib/valumeiro/pvrun" "$work/other/lib/valumeiro/pv_replay"
  launcher=(env -u MALLOC_MMAP_THRESHOLD_ -u MALLOC_TRIM_THRESHOLD_ -u GLIBC_TUNABLES "$work/other/bin/pvrun")
  for mode in run settle check layout 'replay write' 'replay check'; do
    try_call "how memory is taken: $mode" 0 '4194304 67108864 glibc.malloc.hugetlb=1' $mode "$work/plain.c"
  done
  try_call 'how memory is taken: gen' 0 '4194304 67108864 glibc.malloc.hugetlb=1' gen 3
  launcher=(env MALLOC_MMAP_THRESHOLD_=4096 MALLOC_TRIM_THRESHOLD_=0 GLIBC_TUNABLES=glibc.malloc.perturb=0 "$work/other/bin/pvrun")
  try_call 'how memory is taken: what the caller has said' 0 '4096 0 glibc.malloc.perturb=0' check "$work/plain.c"
  launcher=("${kept[@]}")
}

# What is said of a program that a signal ended.
try_ended() {
  local kept=("${launcher[@]}") said='pvrun: the program was ended by the signal'
  # a thousand parentheses are beyond what is read, and to find that out takes more than this stack
  printf 'int main(void) { return %s3%s; }\n' "$(printf '%1000s' '' | tr ' ' '(')" "$(printf '%1000s' '' | tr ' ' ')')" >"$work/nested.c"
  launcher=(bash -c 'ulimit -s 128; exec "$@"' bash "${kept[@]}")
  try_call 'little stack' 139 '' run "$work/nested.c"
  try 'little stack: words' "$said SEGV: its stack was full, since 'ulimit -s' is 128 kilobytes here, and 1024 are enough; so there is no report" "$err"
  try_call 'little stack for a journal' 139 '' replay write "$work/nested.c"
  try_holds 'little stack for a journal: words' "$said SEGV: its stack was full" "$err"
  launcher=(bash -c 'ulimit -s 1024; exec "$@"' bash "${kept[@]}")
  try_call 'enough stack' 0 'exit status=3 turn=3' run "$work/plain.c"
  instead 'kill -SEGV $$'
  try_call 'a fault of the program' 139 '' run "$work/plain.c"
  try 'a fault of the program: words' "$said SEGV; so there is no report" "$err"
  instead 'kill -KILL $$'
  try_call 'no memory left on the machine' 137 '' run "$work/plain.c"
  try 'no memory left on the machine: words' "$said KILL, as a machine does that has no memory left; so there is no report" "$err"
  instead 'while :; do :; done'
  launcher=(bash -c 'ulimit -t 1; exec "$@"' bash "${launcher[@]}")
  try_call 'no time left' 137 '' run "$work/plain.c"
  try 'no time left: words' "$said KILL: the time that 'ulimit -t' gives had passed; so there is no report" "$err"
  instead 'printf "some output\n"; kill -ABRT $$'
  try_call 'output, and no report' 134 'some output' run "$work/plain.c" --report "$work/report"
  try 'output, and no report: the report' '' "$(cat "$work/report")"
  launcher=("${kept[@]}")
}

# A signal that comes to the launcher alone ends what it began.
try_signal() {
  local name=$1 wanted=$2 pid=''
  shift 2
  rm -f "$work/began"
  "${launcher[@]}" "$@" >/dev/null 2>&1 &
  pid=$!
  while [ ! -s "$work/began" ] && kill -0 "$pid" 2>/dev/null; do sleep 0.02; done
  kill -s "$name" "$pid"
  wait "$pid" 2>/dev/null
  try "$name to the launcher ($1): status" "$wanted" "$?"
  try "$name to the launcher ($1): the program" gone "$(kill -0 "$(cat "$work/began")" 2>/dev/null && echo there || echo gone)"
  try "$name to the launcher ($1): temporary files" '' "$(ls -A "$work/temporary")"
}

try_signals() {
  local kept=("${launcher[@]}")
  mkdir -p "$work/temporary"
  instead "echo \$\$ >'$work/began'; exec sleep 60"
  # (a shell that was begun with HUP ignored, as by nohup, can't hear it)
  launcher=(env --default-signal=HUP "TMPDIR=$work/temporary" "${launcher[@]}")
  try_signal TERM 143 run "$work/hello.c"
  try_signal HUP 129 run "$work/plain.c"
  try_signal TERM 143 check "$work/hello.c" --report "$work/report"
  # a fault is told, and what tells it runs the program again
  instead "case \$* in *explain) echo \$\$ >'$work/began'; exec sleep 60 ;; esac; echo indeterminate line=3 turn=3; exit 2"
  launcher=(env "TMPDIR=$work/temporary" "${launcher[@]}")
  try_signal TERM 143 run "$work/unset.c"
  # what tells the calls runs beside that
  instead '[[ $* != *explain ]] || exec sleep 1; echo indeterminate line=3 turn=3; exit 2'
  printf '#!/usr/bin/env bash\necho $$ >"%s"\nexec sleep 60\n' "$work/began" >"$work/other/lib/valumeiro/pv_state" && chmod +x "$work/other/lib/valumeiro/pv_state"
  launcher=(env "TMPDIR=$work/temporary" "${launcher[@]}")
  try_signal TERM 143 run "$work/unset.c"
  # a refusal is shown, and what shows it asks the program
  instead "[[ \$2 == /dev/stdin ]] && echo \$\$ >'$work/began' && exec sleep 60; echo refused reason=constraint index=0; exit 8"
  launcher=(env "TMPDIR=$work/temporary" "${launcher[@]}")
  try_signal TERM 143 check "$work/refused.c"
  # a preprocessor reads what nobody writes
  mkfifo "$work/headers/endless.h"
  printf '#include "endless.h"\n' >"$work/waits.c"
  printf '#!/usr/bin/env bash\necho $$ >"%s"\ncat "%s"\n' "$work/began" "$work/headers/endless.h" >"$work/preprocessor"
  chmod +x "$work/preprocessor"
  launcher=(env "TMPDIR=$work/temporary" "CPP=$work/preprocessor" "${kept[@]}")
  try_signal TERM 143 run "$work/waits.c"
  try 'what a preprocessor began' '' "$(pgrep -f "^cat $work/headers/endless.h")"
  launcher=("${kept[@]}")
}

# Commands from a pipe: the lines of the program, and the source's beside each turn. Without the program there is nothing to be tried.
try_steps() {
  [ -x "$programs/pv_step" ] || return
  call step "$work/unset.c" < <(printf 'go 2\nlist\nnext\n')
  try 'step: status' 0 "$status"
  try 'step' "turn 2 running            $work/unset.c:3: return n;
live n#1 base=0x10000 size=4
live count=1
indeterminate line=3 turn=3  $work/unset.c:3: return n;" "$out"
  call step "$work/unset.c" < <(printf 'jump\n')
  try 'step: no command' 19 "$status"
  try_call 'step: a source that is refused' 8 'refused reason=constraint index=0' step "$work/refused.c"
  try_holds 'step: a source that is refused: place' 'refused: constraint' "$err"
  try_call 'step: no such file' 11 'fault read' step "$work/none.c"
  try_call 'step: no file' 10 words step
  try 'step: no file: hint' 'pvrun: hint: step wants a file' "$err"
  try_call "step: an option of run's" 10 words step "$work/unset.c" --turns 3
}

# Where a run stands: its line, calls and objects, at its end and at a turn. Without the program there is nothing to be tried.
try_where() {
  [ -x "$programs/pv_state" ] || return
  try_call 'where' 0 "indeterminate line=3 turn=3
call main line=1
object n#1 type=int address=0x10000 size=4 value=unset" where "$work/unset.c"
  try_call 'where: turns' 0 'turn 1
call main line=1
turn 4 not taken' where "$work/unset.c" --zap off 1 4
  try_call 'where: an option, and all' 0 'turns bound=1
call main line=1
object n#1 type=int address=0x10000 size=4 value=unset' where "$work/unset.c" --turns 1 --all end
  try_call 'where: a source that is refused' 8 'refused reason=constraint index=0' where "$work/refused.c"
  try_call 'where: no such file' 11 'fault read' where "$work/none.c"
  try_call 'where: no file' 10 words where
  try 'where: no file: hint' 'pvrun: hint: where wants a file' "$err"
  try_call 'where: a turn above the bound' 10 words where "$work/unset.c" --turns 3 4
  try 'where: a turn above the bound: hint' "pvrun: hint: '4' is no place: end, or a turn from 1 to 3 (options stand before places)" "$err"
  try_call 'where: a watcher' 10 words where "$work/unset.c" --watch census
  try 'where: a watcher: hint' "pvrun: hint: '--watch' is no option of where" "$err"
}

try_all_signals() {
  try_memory
  try_ended
  try_signals
  try_steps
  try_where
}
