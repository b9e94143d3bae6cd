# For tools/front: the report's line behind output without a line feed, allocations that were never freed, and the tools that the launcher calls.
# shellcheck shell=bash disable=SC2154  # (variables of tools/front)

# ---- the report begins a line

try_own_line() {
  local source=$work/ends_open.c bytes
  printf '#include <stdio.h>\nint main(void) { printf("hi"); return 0; }\n' >"$source"
  try_call 'output without a line feed' 0 $'hi\nexit status=0 turn=6' run "$source"
  try_call 'output without a line feed, and a watcher' 0 $'hi\nexit status=0 turn=6\nno fault' run "$source" --watch explain
  try_call 'output without a line feed, settled' 0 $'hi\nexit status=0 turn=6\nsides -' settle "$source"
  try_call 'output without a line feed, and SARIF' 0 $'hi\nexit status=0 turn=6' run "$source" --sarif "$work/sarif"
  try_call 'output without a line feed, and the report apart' 0 'hi' run "$source" --report "$work/report"
  try 'output without a line feed, and the report apart: no byte more' 'hi.' "$(cat "$room/out"; echo .)"
  try_call 'output with a line feed' 0 $'hello\nexit status=3 turn=6' run "$work/hello.c"
  try_call 'no output' 0 'exit status=3 turn=3' run "$work/plain.c"
  printf '#include <stdio.h>\nint main(void) { printf("%%c%%c", 65, 0); return 0; }\n' >"$source"
  call run "$source"
  bytes=$(od -An -c "$room/out" | tr -s ' \n' ' ')
  try 'output that ends with a zero byte' ' A \0 \n e x i t s t a t u s = 0 t u r n = 8 \n ' "$bytes"
  printf '#include <stdio.h>\nint main(void) { printf("ab"); return 1 / 0; }\n' >"$source"
  try_call 'a fault behind output without a line feed' 1 $'ab\nundefined clause=6.5.5p5 reason=divide line=2 turn=8' run "$source"
  printf '#include <stdio.h>\nint main(void) { for (;;) printf("0123456789"); }\n' >"$source"
  call run "$source" --turns 30000
  try 'much output without a line feed: status' 6 "$status"
  try 'much output without a line feed: its last lines' "yes 1" "$(tail -c 40 "$room/out" | grep -q '^turns bound=30000$' && echo yes) $(tail -n +2 "$room/out" | wc -l)"
  try 'much output without a line feed: each byte of it' '' "$(head -n 1 "$room/out" | tr -d '\n' | sed 's/0123456789//g')"
  "${launcher[@]}" run "$source" --turns 30000 >/dev/full 2>/dev/null
  try 'much output that cannot be written' 12 "$?"
  try 'much output that nobody reads' 12 "$("${launcher[@]}" run "$source" --turns 100000000 2>/dev/null | head -c 9999 >/dev/null; echo "${PIPESTATUS[0]}")"
}

# ---- leaks

try_leaks() {
  local source=$work/leak.c head=$'#include <stdlib.h>\nint main(void) {\n'
  printf '%s  char *p = malloc(3);\n  int *q = calloc(4, 4);\n  free(p);\n  return q == 0;\n}\n' "$head" >"$source"
  call run "$source" --leaks
  try '--leaks: status and report' "0 exit status=0" "$status ${out%% turn=*}"
  try '--leaks: said' "$source:4:3: warning: allocation 2 was never freed: 16 bytes, made here" "${err%% (turn*}"
  call run "$source"
  try 'leaks without the option' '' "$err"
  call run "$work/hello.c" --leaks
  try '--leaks: nothing allocated' 'pvrun: no leak: nothing was allocated' "$err"
  call run "$work/unset.c" --leaks
  try '--leaks: a fault' no "$([[ $err == *leak* ]] && echo yes || echo no)"
  call run "$source" --leaks --zap off --turns 1000 --script <(echo '@heap 1 0x200000000')
  try_holds '--leaks with other options' "$source:4:3: warning: allocation 2 was never freed" "$err"
  try_slip '--leaks without words' '--leaks says words, and --quiet wants none' run "$source" --leaks --quiet
  try_slip "--leaks is run's" "'--leaks' is no option of check" check "$source" --leaks
  try_slip "--leaks is not a journal's" "'--leaks' is no option of replay write" replay write "$source" --leaks
}

# ---- tools

try_tools() {
  local began=$PWD
  cd "$work" || exit 1
  call page unset.c
  try 'page' '0 yes' "$status $([ -s unset.html ] && echo yes)"
  call explore unset.c
  try_holds 'explore' 'indeterminate line=3' "$out"
  if [ -x "$programs/pv_suite" ]; then
    printf 'hello.c - - 99 exit status=3\r\nwants_m.c - - 99 exit status=6\r\n' >list
    try_call 'suite' 0 $'pass 1\npass 2\nsuite cases=2 passed=2' suite list -D M=2
    try_call 'suite: no list' 11 'fault read' suite none
    try_holds 'suite: no list: words' 'none:1:1: error: No such file or directory' "$err"
    try_call 'suite: arguments that are none' 10 words suite list --fast
    "${launcher[@]}" suite list >/dev/full 2>/dev/null
    try 'suite: a report that cannot be written' 12 "$?"
    "${launcher[@]}" suite list 1</ 2>/dev/null
    try 'suite: a folder in the place of the output' 12 "$?"
  fi
  for name in page explore suite; do
    call "$name" --help
    try "$name --help" 0 "$status"
    try_holds "$name --help: its own" "$name" "${out%%$'\n'*}"
  done
  call --install "$work/again"
  try '--install of what was installed' '125 pvrun: what was installed is copied from its checkout: --install is for that one' "$status $err"
  cd "$began" || exit 1
}

# Files are looked at before a proof, and help needs none.
try_tools_before_proof() {
  make_checkout 'tools before a proof'
  cp tools/*.py tools/page tools/explore tools/suite "$checkout/tools/" && cp -r tools/page.d "$checkout/tools/"
  for name in page explore suite; do
    try_call "$name: no such file, nothing proved" 125 '' "$name" "$work/none"
    try_holds "$name: no such file, nothing proved: words" 'so nothing is proved or run' "$err"
    call "$name" --help
    try "$name --help, nothing proved" 0 "$status"
  done
  try 'none of these began a proof' '' "$(calls)"
}

try_all_tools() {
  local kept=("${launcher[@]}")
  try_own_line
  try_leaks
  try_tools
  try_tools_before_proof
  launcher=("${kept[@]}")
}
