# For tools/front: values and calls behind the words about a run, where the program pv_state is there.
# shellcheck shell=bash disable=SC2154  # (variables of tools/front)

# Of ordinary programs: the place of each call with who called whom, and the values. They follow from the texts.
try_calls_of_programs() {
  local name wanted line words folder=tools/front-programs
  while IFS= read -r line; do
    if [[ $line == [a-z]* ]]; then
      name=$line wanted='' words=()
    elif [ -n "$line" ]; then
      wanted+=${line/#@:/"$folder/$name.c:"}$'\n'
    else
      [ ! -e "$folder/$name.input" ] || words=(--input "$folder/$name.input")
      call run "$folder/$name.c" ${words[@]+"${words[@]}"}
      try "calls of $name" "$wanted" "$(grep -E '^  [a-z]+(#[0-9])? = | called [a-z_]+ here$' <<<"$err" | grep -v "/include/[a-z_]*\.h:" | sed 's/^  / /')"$'\n'
    fi
  done <<'ROWS'
list_freed_while_walked
 node = {@heap#3 + 0, ended} (struct node *)
 list = {@heap#3 + 0, ended} (struct node *)

calculator
 value = 10 (long)
@:35: note: sum called product here
@:49: note: main called sum here

strcat_over_the_end
@:7: note: main called strcat here
 text = [104, 101, 108, 108, 111, 0, unset, unset] (char [8])

fgets_over_the_end
@:5: note: main called fgets here
 line = [108, 111, 110, 103, 101, 114, 32, 116] (char [8])

atoi_out_of_range
@:6: note: main called atoi here

dangling_local
@:15: note: main called puts here

uninitialised
 result = unset (int)
@:14: note: main called largest here

ROWS
}

# The words of a run whole, and the same ones without the program.
try_words_of_calls() {
  local words kept=("${launcher[@]}")
  printf '#define ONE 1\nstatic int over(int n)\n{\n  return ONE / n;  /* n is 0 */\n}\n\nint main(void)\n{\n  return over(3) + over(0);\n}\n' >"$work/over.c"
  words="$work/over.c:4: error: undefined: a division by zero [C17 6.5.5p5] (turn 17)
      return ONE / n;  /* n is 0 */
  n = 0 (int)
$work/over.c:9: note: main called over here
      return over(3) + over(0);"
  try_call 'calls' 1 'undefined clause=6.5.5p5 reason=divide line=4 turn=17' run "$work/over.c"
  try 'calls: words' "$words" "$err"
  call settle "$work/over.c"
  try 'calls: settled' "$words" "$err"
  call settle "$work/over.c" --sides hl
  try 'calls: with sides' "$words" "$err"
  call run "$work/over.c" --zap off --turns 99 --script "$work/script" --report "$work/report"
  try 'calls: with other options' "$words" "$err"
  call run "$work/over.c" --quiet
  try 'calls: --quiet' '' "$err"
  rm -rf "$work/without" && cp -r "$room/installed" "$work/without" && rm "$work/without/lib/valumeiro/pv_state"
  launcher=("$work/without/bin/pvrun")
  call run "$work/over.c"
  try 'calls: without the program' "$(head -n 2 <<<"$words")" "$err"
  call settle "$work/over.c" --sides hl
  try 'calls: with sides, without the program' '' "$err"
  launcher=("${kept[@]}")
}

# Runs that the bound ends, or their sides.
try_calls_of_others() {
  printf '#include <stdio.h>\nstatic void spin(void) {\n  fprintf(stderr, "said");\n  for (;;)\n    ;\n}\nint main(void) {\n  spin();\n}\n' >"$work/spin.c"
  try_call 'calls: a bound' 6 'turns bound=100' run "$work/spin.c" --turns 100
  try 'calls: a bound: words' "said"$'\n'"$work/spin.c:8: note: main called spin here"$'\n      spin();' "$err"
  call run tools/front-programs/endless.c
  try 'calls: a bound, in main alone' '' "$err"
  printf 'int a[1];\nstatic int *made(unsigned long at) {\n  return (int *)at;\n}\nint main(void) {\n  return *made((unsigned long)(a + 1));\n}\n' >"$work/pair.c"
  call settle "$work/pair.c" --sides -
  try 'calls: another end, with sides' 1 "$status"
  printf 'int x, y;\nstatic int *made(unsigned long at) {\n  return (int *)at;\n}\nint main(void) {\n  unsigned long end = (unsigned long)(&x + 1), begin = (unsigned long)&y;\n  return made(end) == made(begin);\n}\n' >"$work/pair.c"
  printf 'x 1 0x20000\ny 1 0x20004\n' >"$work/near"
  try_call 'calls: sides that end' 14 'sides ended pair=1' settle "$work/pair.c" --sides - --script "$work/near"
  try 'calls: sides that end: words' "pvrun: hint: the run made a pair for which --sides has no letter"$'\n'"$work/pair.c:7: note: main called made here
      return made(end) == made(begin);" "$err"
}

try_all_calls() {
  [ -x "$programs/pv_state" ] || return
  try_calls_of_programs
  try_words_of_calls
  try_calls_of_others
}
