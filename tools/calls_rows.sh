# For tools/explain-fault --self-test: which calls and values are said of runs. The lines and the values follow from the texts, by C17.
# shellcheck shell=bash disable=SC2034,SC2154  # (variables of tools/explain-fault)

# A source, the status that it ends with, its values and calls, a line each, and the options of its run.
try_run() {
  local what=$1 status=$2 wanted=$3 said
  printf '%s\n' "$4" >"$room/a.i"
  shift 4
  said=$(looker=$state && explain "$program" "$room/a.i" a.c "$status" "$@" 2>&1 | grep -E '^  [A-Za-z_0-9#]+ = |: note: |^  \(and ')
  try "$what" "$wanted" "$said"
}

try_call_shapes() {
  local down=$'int down(int n) {\n  return n ? down(n - 1) : 1 / n;\n}\nint main(void) {\n  return down('
  try_run 'recursion, five deep' 1 $'  n = 0 (int)\na.c:2: note: down called down here\na.c:2: note: down called down here
a.c:2: note: down called down here\na.c:2: note: down called down here\na.c:5: note: main called down here' "$down"$'4);\n}'
  try_run 'recursion, thirty deep: frames' 1 "$(echo '  n = 0 (int)'; for _ in {1..9}; do echo 'a.c:2: note: down called down here'; done; echo '  (and 21 calls more: pvrun where)')" \
    "$down"$'29);\n}'
  try_run 'recursion, a hundred deep: frames' 1 "$(echo '  n = 0 (int)'; for _ in {1..9}; do echo 'a.c:2: note: down called down here'; done; echo '  (and 91 calls more: pvrun where)')" \
    "$down"$'99);\n}'
  try_run 'a call within an argument of a call' 1 $'  b = 0 (int)\na.c:5: note: main called bad here' \
    $'int one(int a) { return a; }\nint bad(int b) { return 1 / b; }\nint main(void) {\n  return one(1 +\n    bad(0));\n}'
  try_run 'a fault in a call whose argument was a call' 1 $'  a = 0 (int)\na.c:4: note: main called one here' \
    $'int one(int a) { return 1 / a; }\nint zero(int b) { return b; }\nint main(void) {\n  return one(\n    zero(0));\n}'
  try_run 'by a table of functions' 1 $'  a = 0 (int)\na.c:6: note: main called g here' \
    $'int f(int a) { return a; }\nint g(int a) { return 1 / a; }\nint (*table[2])(int) = { f, g };\nint main(void) {\n  int i = 1;\n  return table[i](0);\n}'
  try_run 'two calls in one line' 1 $'  b = 0 (int)\na.c:4: note: main called g here' \
    $'int f(int a) { return a; }\nint g(int b) { return 1 / b; }\nint main(void) {\n  return f(1) + g(0);\n}'
  try_run "a callee's callee" 1 $'  p = null (int *)\na.c:2: note: middle called inner here\na.c:5: note: outer called middle here\na.c:10: note: main called outer here' \
    $'int inner(int *p) { return *p; }\nint middle(int *p) { return inner(p); }\nint outer(int k) {\n  int x = k;\n  return x + middle(0);\n}\nint main(void)\n{\n  return\n    outer(2);\n}'
  printf 'x 1 0x10\n' >"$room/low"
  try_run 'a static one that has no place: no calls' 4 '  y = 0 (int)' $'int y = 5, x = 3;\nint main(void) { return x; }' --script "$room/low"
  try_run 'main alone' 1 '  n = 0 (int)' $'int main(void) {\n  int n = 0;\n  return 1 / n;\n}'
  try_run 'an argument of printf' 1 '  zero = 0 (int)' $'int printf(const char *, ...);\nint main(void) {\n  int zero = 0;\n  printf("%d\\n", 1 / zero);\n  return 0;\n}'
  try_run 'what printf prints' 1 $'  text = [97, 98] (char [2])\na.c:8: note: main called show here' \
    $'int printf(const char *, ...);\nstatic void show(void) {\n  char text[2] = "ab";\n  printf("%s\\n",\n    text);\n}\nint main(void) {\n  show();\n}'
  try_run 'abort' 7 'a.c:3: note: main called stop here' $'void abort(void);\nstatic void stop(void) { abort(); }\nint main(void) { stop(); }'
  try_run 'line markers' 1 $'  n = 0 (int)\na.c:3: note: main called f here' $'# 7 "dir/b.h" 1\nstatic int f(int n) { return 1 / n; }\n# 2 "a.c" 2\nint main(void) {\n  return f(0);\n}'
}

# Which values are said, and how.
try_values() {
  local body=$'int main(void) {\n'
  try_run 'no value' 2 '  x = unset (int)' "$body"$'  int x;\n  return x;\n}'
  try_run 'one past the end' 1 $'  a = [1, 2] (int [2])\n  p = {a#1 + 8, one past the end} (int *)' "$body"$'  int a[2] = { 1, 2 }, *p = a + 2;\n  return a[0] + *p;\n}'
  try_run 'what has ended' 1 '  p = {@heap#1 + 0, ended} (char *)' \
    $'void free(void *);\nvoid *malloc(unsigned long);\nint main(void) {\n  char *p = malloc(1);\n  free(p);\n  return *p;\n}'
  try_run 'a member, and a literal' 1 $'  k = 7 (int)\n  s = {.n = 0} (struct s)' \
    $'int printf(const char *, ...);\nstruct s { int n; };\nint n = 5, k = 7;\nint main(void) {\n  struct s s = { 0 };\n  printf("%d n" "%d\\n", k / s.n, 1 /* n */);\n}'
  try_run 'a statement of several lines' 1 $'  low = 3 (int)\n  high = 0 (int)' "$body"$'  int low = 3, high = 0, other = 1;\n  other = 2;\n  return low\n    /\n    high;\n}'
  try_run 'a static one that is hidden' 1 '  n = 0 (int)' $'int n = 5;\nint main(void) {\n  int n = 0;\n  return 1 / n;\n}'
  try_run 'two of one name' 1 $'  n#1 = 5 (int)\n  n#2 = 0 (int)' "$body"$'  int n = 5;\n  {\n    int n = 0;\n    return 1 / n;\n  }\n}'
  try_run 'a block that was left' 1 '  n = 5 (int)' "$body"$'  int n = 5, z = 0;\n  { int n = 0; z = n; }\n  return n\n / 0;\n}'
  try_run 'more than eight' 1 "$(for n in a b c d e f g h; do echo "  $n = 1 (int)"; done; echo '  (and 2 values more: pvrun where)')" \
    "$body"$'  int a = 1, b = 1, c = 1, d = 1, e = 1, f = 1, g = 1, h = 1, i = 1, z = 0;\n  return a + b + c + d + e + f + g + h + i / z;\n}'
}

# Runs whose pairs are settled otherwise, whose pointers to what has ended may be read, and that the bound ends.
try_kinds_of_runs() {
  local pair=$'int a[1], b[1];\nstatic int use(unsigned long at) {\n  int *p = (int *)at;\n  return *p / a[0];\n}\nint main(void) {\n  unsigned long end = (unsigned long)(a + 1), begin = (unsigned long)b;\n  return use(end == begin ? end : begin);\n}'
  local near=$'a 1 0x20000\nb 1 0x20004' spin=$'static void spin(void) {\n  for (;;)\n    ;\n}\nint main(void) {\n  spin();\n}' said
  printf '%s\n' "$near" >"$room/near"
  try_run 'a pair that a use has settled' 1 $'  p = pair 1 {b#1 + 0} (int *)\n  a = [0] (int [1])\na.c:8: note: main called use here' "$pair" --script "$room/near"
  try_run 'sides: high' 1 $'  p = pair 1 {b#1 + 0} (int *)\n  a = [0] (int [1])\na.c:8: note: main called use here' "$pair" --script "$room/near" --sides h
  said=$(looker=$state && explain "$program" "$room/a.i" a.c 1 --script "$room/near" --sides h 2>&1 | head -n 2)
  try_holds 'sides: what the run ended by' $'a.c:4: error: undefined: a division by zero [C17 6.5.5p5] (turn ' "$said"
  try_run 'sides: low' 1 $'  p = pair 1 {a#1 + 4, one past the end} (int *)\n  a = [0] (int [1])\na.c:8: note: main called use here' "$pair" --script "$room/near" --sides l
  try_run 'sides that end' 14 'a.c:8: note: main called use here' "$pair" --script "$room/near" --sides -
  try_run 'a bound' 6 'a.c:6: note: main called spin here' "$spin" --turns 100
  try_run '--zap off' 1 $'  p = {t#1 + 0, ended} (int *)\n  zero = 0 (int)' \
    $'int main(void) {\n  int *p, zero = 0;\n  { int t = 1; p = &t; }\n  return (p == 0) / zero;\n}' --zap off
  try_run '--zap on' 1 $'  p = {t#1 + 0, ended} (int *)\n  zero = 0 (int)' $'int main(void) {\n  int *p, zero = 0;\n  { int t = 1; p = &t; }\n  return (p == 0) / zero;\n}'
  try 'another status than the run has' '' "$(looker=$state && explain "$program" "$room/a.i" a.c 2 2>&1)"
  try 'another status than the run has, with sides' '' "$(looker=$state && explain "$program" "$room/a.i" a.c 2 --sides - 2>&1)"
}

# Faults within the headers that come with the program: the innermost call from outside is told first.
try_headers() {
  printf '#include <string.h>\nstatic void greet(const char *who) {\n  char line[8] = "hello ";\n  strcat(line, who);\n}\nint main(void) {\n  greet("bob");\n}\n' >"$room/b.c"
  try_header 'strcat' 1 $'  __target = {line#1 + 0} (char *)\n  __source = {@lit#1 + 0} (const char *)\nb.c:4: note: greet called strcat here
  line = [104, 101, 108, 108, 111, 32, 0, 0] (char [8])\n  who = {@lit#1 + 0} (const char *)\nb.c:7: note: main called greet here'
  printf '#include <assert.h>\nint main(void) {\n  int n = 0;\n  assert(n);\n}\n' >"$room/b.c"
  try_header 'assert' 7 $'b.c:4: note: main called __assertion_failed here\n  n = 0 (int)'
  printf '#include <ctype.h>\nint main(void) {\n  int far = 300;\n  return isdigit(far);\n}\n' >"$room/b.c"
  try_header 'isdigit' 1 $'  __character = 300 (int)\n  __characters = [0, 0, 0, 0, 0, 0, 0, 0, 0, 0, 0, 0, 0, 0, 0, 0, ..] (const char [257])
b.c:4: note: main called isdigit here\n  far = 300 (int)\nctype.h:21: note: isdigit called __is_between here'
}

try_header() { try "in a header: $1" "$3" "$(said_of_header "$2")"; }

said_of_header() {
  (cd "$room" && "$here_whole/preprocess" b.c b.i)
  (looker=$state fresh=yes here=$here_whole headers=${here_whole%/*}/include && cd "$room" && explain "$program_whole" "$room/b.i" b.c "$1" 2>&1) | grep -E '^  [A-Za-z_0-9#]+ = |: note: |^  \(and ' | sed "s|^${here_whole%/*}/include/||"
}

# All of it, where there is pv_state beside the program.
try_calls() {
  local folder=${program%/*} state='' name program_whole here_whole
  for name in "$folder/pv_state" "$folder/../../pv_state/out/pv_state"; do [ ! -x "$name" ] || state=$(cd "${name%/*}" && pwd)/pv_state; done
  [ -n "$state" ] || { echo 'explain-fault: without pv_state no calls are tried' && return; }
  here_whole=$(cd "$here" && pwd) program_whole=$(cd "$folder" && pwd)/${program##*/}
  try_call_shapes
  try_values
  try_kinds_of_runs
  try_headers
}
