# For tools/front: words, names of every kind, pipes, and machines that lack something.
# shellcheck shell=bash disable=SC2002,SC2016,SC2086,SC2154

# ---- words that are none

try_slip() {
  local what=$1 hint=$2
  shift 2
  try_call "$what" 10 words "$@"
  try "$what: hint" "pvrun: hint: $hint" "$err"
}

try_slips() {
  local file=$work/plain.c
  try_slip 'no word' 'no mode; try ./pvrun --help'
  try_slip 'no such mode' "'walk' is no mode (run, settle, check, layout, gen, replay, step, where, page, explore, suite)" walk "$file"
  try_slip 'a file in the place of a mode' "'a.c' is no mode; try pvrun run a.c" a.c
  try_slip 'no file' 'run wants a file' run
  try_slip 'an empty name' 'the name of the file is empty' check ''
  try_slip 'an option before the file' 'the file comes first: pvrun run FILE -I' run -I headers "$file"
  try_slip 'no such option' "'--fast' is no option of run" run "$file" --fast
  try_slip 'a second file' "'b.c' is a second file, and check takes one (a source can #include others)" check "$file" b.c
  try_call 'standard input by a dash' 11 'fault read' run -
  try 'standard input by a dash: hint' 'pvrun: hint: standard input is called /dev/stdin: pvrun run /dev/stdin' "$err"
  try_slip "an option of run's" "'--turns' is no option of layout" layout "$file" --turns 3
  try_slip 'no value' '--turns wants a value' run "$file" --turns
  try_slip 'an empty folder' '-I wants a value' run "$file" -I ''
  try_slip 'no number' "'03' is no number from 1 to 100000000 without a leading zero" run "$file" --turns 03
  try_slip 'too great a number' "'100000001' is no number from 1 to 100000000 without a leading zero" run "$file" --turns 100000001
  try_slip 'an option twice' '--turns stands twice' run "$file" --turns 3 --turns 4
  try_slip 'a watcher twice' '--watch census stands twice' run "$file" --watch census --watch census
  try_slip 'no watcher' "'all' is no watcher (explain, census, pointers)" run "$file" --watch all
  try_slip 'zap twice' '--zap stands twice' run "$file" --zap on --zap off
  try_slip 'neither on nor off' "'no' is neither on nor off" settle "$file" --zap no
  try_slip 'sides twice' '--sides stands twice' settle "$file" --sides l --sides h
  try_slip 'a letter of no side' "'lx' is neither - nor letters l and h" settle "$file" --sides lx
  try_slip 'no letter' "'' is neither - nor letters l and h" settle "$file" --sides ''
  try_slip "an option of settle's" "'--sides' is no option of run" run "$file" --sides l
  try_slip 'nobody watches a settled run' "'--watch' is no option of settle" settle "$file" --watch census
  try_slip 'a script without a name' "the name of the script's file is empty" run "$file" --script ''
  try_slip 'gen without a number' 'gen takes one number, from 1 to 8192 without a leading zero' gen 9000
  try_slip 'gen with an option' "gen takes no option '--raw'" gen 3 --raw
  try_slip 'a word that can not be dropped' "'const' is no word that --drop takes away (restrict, volatile, attributes)" run "$file" --drop const
  try_slip 'an empty name of a report' 'the name after --report is empty' run "$file" --report ''
  try_slip 'an empty name for standard error' 'the name after --stderr is empty' run "$file" --stderr ''
  try_slip "standard error of what doesn't run" "'--stderr' is no option of check" check "$file" --stderr x
  try_slip 'no name of an input' '--input wants a value' run "$file" --input
  try_slip 'an empty name of a SARIF' 'the name after --sarif is empty' run "$file" --sarif ''
}

try_unread() {
  try_call 'no such file' 11 'fault read' run "$work/none.c"
  try 'no such file: hint' "pvrun: hint: '$work/none.c' could not be read" "$err"
  try_call 'a folder' 11 'fault read' check "$work"
  try_call 'no such script' 11 'fault read' run "$work/plain.c" --script "$work/none"
  try 'no such script: hint' "pvrun: hint: '$work/none' could not be read" "$err"
}

try_told() {
  local word
  call --help
  try_holds '--help' 'usage: pvrun run FILE' "$out"
  for word in -h help 'run -h' 'check --help' 'step -h' 'where -h' 'replay --help'; do
    try_call "$word" 0 "$(cat tools/help.txt)" $word
  done
  for word in --help 'run -h' --version; do
    "${launcher[@]}" $word >/dev/full 2>"$room/err"
    try "$word that can not be written" "12 pvrun: the output could not be written" "$? $(cat "$room/err")"
  done
  call --version
  try_holds '--version' "Valumeiro $(cat VERSION) (" "$out"
}

# ---- names

# A source behind each name, with a directive: its report is the same, and words and places begin with the name as it is shown.
try_name() {
  local name=$1 shown=$2
  cp "$work/unset.c" "$work/names/$name"
  printf '#define B\nint main(void) { return 0; }\nint f(void) { return g; }\n' >"$work/names/refused $name"
  try_call "the name '$shown'" 2 'indeterminate line=3 turn=3' run "$name"
  try_holds "the name '$shown': words" "$shown:3: error: indeterminate: " "$err"
  printf '#define A\n' >>"$name"
  try_call "the name '$shown' with a directive" 2 '' run "$name" --keep 'kept text' --report 'kept report'
  try "the name '$shown' with a directive: report" 'indeterminate line=3 turn=3' "$(cat 'kept report')"
  try_holds "the name '$shown' with a directive: words" "$shown:3: error: indeterminate: " "$err"
  try_call "the name '$shown', refused" 8 'refused reason=constraint index=1' check "refused $name"
  try_holds "the name '$shown', refused: place" "refused $shown:3:15: error: refused: constraint: this seems to be what is refused" "$err"
  try_holds "the name '$shown', refused: the declaration" "refused $shown:3:1: note: the declaration that is refused begins here" "$err"
}

try_names() {
  local began=$PWD
  mkdir "$work/names" && cd "$work/names" || exit 1
  try_name 'with spaces.c' 'with spaces.c'
  try_name "'quotes\" and \`ticks\`.c" "'quotes\" and \`ticks\`.c"
  try_name '-leading.c' '-leading.c'
  try_name $'line\nfeed.c' 'line?feed.c'
  try_name '$(touch made) *.c' '$(touch made) *.c'
  try_name 'program.c' 'program.c'
  try_name 'a=b.c' 'a=b.c'
  try_name $'\xc3\xa4.c' $'\xc3\xa4.c'
  try_name 'back\slash\n.c' 'back\slash\n.c'
  try_name 'no ending' 'no ending'
  try 'no name was taken for a command' no "$([ -e made ] && echo yes || echo no)"
  mkdir 'a folder; -I' && mv 'with spaces.c' 'a folder; -I/'
  try_call 'a folder with spaces' 2 'indeterminate line=3 turn=3' run 'a folder; -I/with spaces.c'
  cd "$began" || exit 1
}

# ---- pipes, and other ways to the files

try_pipes() {
  local began=$PWD
  try_call 'a pipe' 0 $'hello\nexit status=3 turn=6' run <(cat "$work/hello.c")
  try_call 'a pipe without directives' 2 'indeterminate line=3 turn=3' run <(cat "$work/unset.c")
  try_holds 'a pipe: words' '/dev/fd/' "$err"
  try_call 'a pipe that is refused' 8 'refused reason=constraint index=0' check <(echo 'int main(void) { return n; }')
  try_holds 'a pipe that is refused: place' ':1:1: note: the declaration that is refused begins here' "$err"
  try_call 'a script from a pipe' 2 'indeterminate line=3 turn=3' run "$work/unset.c" --script <(printf 'n 1 0x30000\n')
  try_holds 'a script from a pipe: words' '4 bytes at 0x30000' "$err"
  call run /dev/stdin <"$work/hello.c"
  try 'standard input' $'hello\nexit status=3 turn=6' "$out"
  out=$(cat "$work/hello.c" | "${launcher[@]}" run /dev/stdin)
  try 'standard input from a pipe' $'hello\nexit status=3 turn=6' "$out"
  call check /dev/zero
  try 'an endless file' 8 "$status"
  cd "$work" && ln -s "$room/installed/bin/pvrun" linked
  try 'through a link' $'hello\nexit status=3 turn=6' "$(./linked run hello.c)"
  cd "$began" || exit 1
}

# ---- what a machine may lack

# A folder with the commands that the launcher needs and those named.
only() {
  local name
  rm -rf "$room/path" && mkdir "$room/path"
  for name in bash env cat grep sed awk head tail cut wc mktemp rm readlink tr "$@"; do
    ln -s "$(command -v "$name")" "$room/path/$name"
  done
}

try_lacks() {
  local kept=("${launcher[@]}")
  only
  launcher=(env "PATH=$room/path" "${kept[@]}")
  try_call 'no preprocessor: no need' 2 'indeterminate line=3 turn=3' run "$work/unset.c"
  try_holds 'no Python: words of a fault' 'a value is used that was never stored' "$err"
  try_call 'no preprocessor' 127 '' run "$work/hello.c"
  try_holds 'no preprocessor: words' 'there is no preprocessor' "$err"
  try_call 'no Python: a refusal' 8 'refused reason=constraint index=0' check "$work/refused.c"
  try_holds 'no Python: a line of words' 'without python3' "$err"
  try_holds 'no Python: the place' "$work/refused.c:1:1: error: refused: constraint" "$err"
  launcher=(env CPP=no_such_command "${kept[@]}")
  try_call 'no such preprocessor' 127 '' run "$work/hello.c"
  try_holds 'no such preprocessor: words' "CPP is 'no_such_command'" "$err"
  launcher=(env NO_COLOR=1 "${kept[@]}")
  launcher=("${kept[@]}")
}

# Commands that are not there, and limits of the shell: the launcher's own statuses, and why.
try_edges() {
  local kept=("${launcher[@]}") name
  for name in awk head; do
    only gcc && rm "$room/path/$name"
    launcher=(env "PATH=$room/path" "${kept[@]}")
    try_call "no $name" 127 '' run "$work/hello.c"
    try_holds "no $name: words" "the command $name is not found" "$err"
    try_call "no $name: no need" 0 'exit status=3 turn=3' run "$work/plain.c"
    try_call "no $name: a fault" 2 'indeterminate line=3 turn=3' run "$work/unset.c"
    [ "$name" = head ] || try "no $name: words of a fault" 'pvrun: hint: without awk nothing is said in words' "$err"
  done
  only gcc
  try_call '--lower without python3' 127 '' run "$work/hello.c" --lower
  try_holds '--lower without python3: words' '--lower wants a python3' "$err"
  launcher=(env -i "${kept[@]}")
  try_call 'no environment' 0 $'hello\nexit status=3 turn=6' run "$work/hello.c"
  launcher=(bash -c 'ulimit -n 4; exec "$@"' bash "${kept[@]}")
  try_call 'four files' 125 '' run "$work/plain.c"
  try_holds 'four files: words' 'too few files may be open here' "$err"
  launcher=("${kept[@]}")
  # (what tests this writes no file either)
  err=$(bash -c 'ulimit -f 0; "$@"; echo "status $?"' bash "${kept[@]}" run "$work/hello.c" 2>&1 | cat)
  try 'no byte of a file' "pvrun: temporary files can't be written (in ${TMPDIR:-/tmp})"$'\nstatus 127' "$err"
  try_call 'a text that can not be kept' 127 '' run "$work/hello.c" --keep /dev/full
  try 'a text that can not be kept: words' "pvrun: '/dev/full' could not be written" "$err"
  try_call 'two texts in one file' 127 '' run "$work/hello.c" --keep "$work/kept" --report "$work/./kept"
  try 'two texts in one file: words' "pvrun: '$work/kept' would be written twice" "$err"
  rm -f "$work/kept"
  try_call 'two texts to one device' 0 hello run "$work/hello.c" --keep /dev/null --report /dev/null
}

# Each preprocessor that is there, alone.
try_preprocessors() {
  local name kept=("${launcher[@]}")
  for name in 'gcc -E' 'clang -E' 'tcc -E' cpp; do
    command -v "${name% *}" >/dev/null || continue
    launcher=(env "CPP=$name" "${kept[@]}")
    try_call "$name" 0 $'hello\nexit status=3 turn=6' run "$work/hello.c"
    call run "$work/fault.c"
    try "$name: a fault" 1 "$status"
    try_holds "$name: the place of a fault" "$work/fault.c:4: error: undefined: " "$err"
    try_call "$name: a pipe" 0 $'hello\nexit status=3 turn=6' run <(cat "$work/hello.c")
  done
  launcher=("${kept[@]}")
}

# Colours come on a terminal alone.
try_colours() {
  local shown
  command -v script >/dev/null || return
  shown=$(NO_COLOR='' script -qec "'${launcher[0]}' run '$work/unset.c'" /dev/null)
  try_holds 'colours on a terminal' $'\033[1;31merror:\033[0m indeterminate:' "$shown"
  shown=$(NO_COLOR=1 script -qec "'${launcher[0]}' run '$work/unset.c'" /dev/null)
  try 'NO_COLOR' no "$([[ $shown == *$'\033'* ]] && echo yes || echo no)"
}

# The places of faults and refusals are those of gcc's messages to the problem matcher $gcc of Visual Studio Code and to vim as it comes. (Its file is
# the shortest one that fits, and no name here has a colon.)
try_editors() {
  local matcher='^([^:]*):([0-9]+):([0-9]*):?[[:space:]]+(fatal[[:space:]]+)?(warning|error):[[:space:]]+(.*)$' mode name place row
  for row in 'fault.c run 4:' 'unset.c run 3:' 'refused.c check 1:18' 'wants_m.c run 3:3'; do
    read -r name mode place <<<"$row"
    call "$mode" "$work/$name"
    [[ ${err%%$'\n'*} =~ $matcher ]]
    try "\$gcc: $name" "$work/$name:$place:error" "${BASH_REMATCH[1]}:${BASH_REMATCH[2]}:${BASH_REMATCH[3]}:${BASH_REMATCH[5]}"
    command -v vim >/dev/null || continue
    printf '%s\n' "$err" >"$work/said"
    (cd "$work" && vim -u NONE -N -es -c 'cfile said' \
      -c "call writefile(map(filter(getqflist(), 'v:val.valid'), 'fnamemodify(bufname(v:val.bufnr), \":t\") . \":\" . v:val.lnum'), 'places')" -c 'qa!' </dev/null >/dev/null 2>&1)
    try "vim: $name" "$name:${place%%:*}" "$(head -n 1 "$work/places")"
  done
}

# README begins with an ordinary file: the end of its text, its report and its words are those that are shown there.
try_readme() {
  local file=$work/list.c line shown
  cp tools/front-programs/list_freed_while_walked.c "$file"
  call run "$file"
  while IFS= read -r line; do
    try "README: $line" yes "$(grep -qF -- "    ${line#"$work/"}" README.md && echo yes)"
  done <<<"$out"$'\n'"$err"
  shown=$(sed -n '/^```c$/,/^```$/p' README.md | sed '1d; /^```$/,$d')
  try 'README: the file' yes "$([ -n "$shown" ] && [[ $(cat "$file") == *"$shown"* ]] && echo yes)"
}

# ---- journals

try_journals() {
  local journal=$work/journal
  try_call 'a journal' 0 $'create n#1 turn=1 base=0x10000 size=4\nfault turn=3\nevents 2' replay write "$work/unset.c"
  cp "$room/out" "$journal"
  try_call 'a journal is checked' 0 'journal ok events=2' replay check "$journal"
  sed -i 1d "$journal"
  try_call 'a journal without its first line' 17 'journal bad line=2' replay check "$journal"
  printf '#define N 0\nint main(void) { return N; }\n' >"$work/nothing.c"
  try_call 'a journal of a file with a directive' 0 'events 0' replay write "$work/nothing.c"
  try_call 'a journal of a part of a run' 0 $'create n#1 turn=1 base=0x20000 size=4\nevents 1' replay write "$work/unset.c" --turns 1 --script <(echo n 1 0x20000)
  try_call 'a journal of what is refused' 8 'refused reason=constraint index=0' replay write "$work/refused.c"
  try_holds 'a journal of what is refused: place' 'refused: constraint' "$err"
  try_call 'a journal of no file' 11 'fault read' replay write "$work/none.c"
  try_call 'no journal' 11 'fault read' replay check "$work/none"
  try_slip 'a journal, and nothing to do with it' 'replay writes or checks: pvrun replay write FILE, pvrun replay check FILE' replay "$journal"
  try_slip 'no file for a journal' 'replay write wants a file' replay write
  try_slip "an option of run's for a journal" "'--zap' is no option of replay write" replay write "$work/unset.c" --zap off
  try_slip 'a second file for a journal' "'b.c' is a second file, and replay write takes one (a source can #include others)" replay write "$work/unset.c" b.c
  try_slip 'two journals' 'replay check wants one file, and no other argument' replay check "$journal" "$journal"
}

try_all_words() {
  try_readme
  try_editors
  try_slips
  try_unread
  try_told
  try_names
  try_pipes
  try_lacks
  try_edges
  try_preprocessors
  try_colours
  try_journals
}
