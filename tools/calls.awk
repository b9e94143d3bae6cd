# For tools/explain-fault, after tools/lines.awk: reads what pv_state tells of the end of a run (docs/FORMATS.md, Where a run stands), whose source had its
# line markers emptied, and that source; says which values the variables of the faulting statement have, and by which calls the run got there.
# ENVIRON has ASKED, FRESH and COLOUR as for tools/explain-fault.awk, and OURS, how names of the headers begin that come with the program.
#
# A call was made at a place: the line of its callee's `call`, in the function of the next one. Place number 0 is that of the fault, in the innermost
# function; place number i is where function number i called the one before.
BEGIN {
  if (ENVIRON["COLOUR"]) { bold = "\033[1m"; cyan = "\033[1;36m"; plain = "\033[0m" }
  most_places = 10
  most_values = 8
  most_lines = 20
  name = ENVIRON["ASKED"]
  line = 1
  calls = 0
  at[0] = 0
}

# ---- what is told of the run's end

# Takes an object of the innermost body so far, or a static one: what it is called with its number, its type and its value.
function take_object(told, body,    id, key) {
  match(told, /^[a-z]+ [^ ]+/)
  id = substr(told, 1, RLENGTH)
  sub(/^[a-z]+ /, "", id)
  key = body " " substr(id, 1, index(id, "#") - 1)
  ids[key, ++count[key]] = id
  match(told, / address=0x[0-9a-f]+ size=[0-9]+ value=/)
  types[body, id] = substr(told, index(told, " type=") + 6, RSTART - index(told, " type=") - 6)
  values[body, id] = substr(told, RSTART + RLENGTH)
}

function take(told,    word) {
  split(told, word, " ")
  if (FNR == 1) at[0] = match(told, / line=[0-9]+/) ? substr(told, RSTART + 6, RLENGTH - 6) + 0 : 0
  else if (word[1] == "call") { functions[calls] = word[2]; at[++calls] = substr(word[3], 6) + 0 }
  else if (word[1] == "calls") untold = substr(word[2], 6) + 0
  else if (word[1] == "object") take_object(told, calls - 1)
  else if (word[1] == "static") take_object(told, "static")
}

# ---- the source

# Notes a line of the source: where it comes from, and what of it is no comment.
function note_line(text) {
  files[FNR] = name
  marked_at[FNR] = marked
  numbers[FNR] = line++
  texts[FNR] = text
  bares[FNR] = bare(text)
}

function is_ours(n) { return marked_at[n] && ENVIRON["OURS"] != "" && index(unquoted(files[n]), ENVIRON["OURS"]) == 1 }

# The line as its author wrote it, where that file is still as it was.
function original(n,    file, text, i) {
  text = texts[n]
  if (!ENVIRON["FRESH"]) return text
  file = marked_at[n] ? unquoted(files[n]) : files[n]
  for (i = 0; i < numbers[n] && (getline text < file) > 0; i++);
  close(file)
  return text
}

# The statement around a line, without literals and comments, as far as lines tell it.
function statement(n,    from, to, text) {
  for (from = n; from > 1 && n - from < most_lines && (from - 1) in bares && !ends_statement(bares[from - 1]); from--);
  for (to = n; (to + 1) in bares && to - n < most_lines && !ends_statement(bares[to]); to++);
  for (; from <= to; from++) text = text " " bares[from]
  return text
}

# Whether a statement ends, or something begins, with what a line ends with.
function ends_statement(text) { return text ~ /[;{}][ \t\r]*$|^[ \t]*(case[ \t].*|default|[A-Za-z_][A-Za-z_0-9]*)[ \t]*:[ \t\r]*$/ }

# ---- what is said

# Says the values of the variables that a statement names, which is in body number `body`. A local one hides a static one of its name.
function say_values(n, body,    text, word, before, told) {
  text = statement(n)
  while (match(text, /[A-Za-z_0-9]+/)) {
    word = substr(text, RSTART, RLENGTH)
    before = substr(text, 1, RSTART - 1)
    text = substr(text, RSTART + RLENGTH)
    if (word ~ /^[0-9]/ || before ~ /(\.|->)[ \t]*$/ || word in told) continue
    told[word] = 1
    if ((body " " word) in count) say_objects(body, word)
    else if (("static " word) in count) say_objects("static", word)
  }
}

# Says the values of the objects of a name: where there are several, each with its number.
function say_objects(body, word,    key, i, id, value) {
  key = body " " word
  for (i = 1; i <= count[key]; i++) {
    id = ids[key, i]
    if (++valued > most_values) continue
    value = values[body, id]
    if (length(value) > 200) value = substr(value, 1, 200) " .."
    printf "  %s = %s (%s)\n", (count[key] > 1 ? id : word), shown(value), types[body, id]
  }
}

# Says that function number i called the one before, where, and with the values of the statement's variables if they are wanted.
function say_call(i, is_valued,    n, text) {
  n = at[i]
  if (!(n in texts)) return
  text = original(n)
  sub(/\r$/, "", text)
  printf "%s%s:%d:%s %snote:%s %s called %s here\n", bold, shown(marked_at[n] ? unquoted(files[n]) : files[n]), numbers[n], plain, cyan, plain, functions[i], functions[i - 1]
  printf "    %s\n", shown(substr(text, 1, 200))
  if (is_valued) say_values(n, i)
}

# The place that is told first: that of the fault, or where it is in a header of ours the innermost one that isn't.
function first_place(    i) {
  if (!at[0] || !is_ours(at[0])) return 0
  for (i = 1; i < calls; i++) if (!is_ours(at[i])) return i
  return 0
}

function say(    first, i, said) {
  if (at[0] in texts) say_values(at[0], calls ? 0 : "static")
  first = first_place()
  if (first) say_call(first, 1)
  said = 1 + (first > 0)
  for (i = 1; i < calls && said < most_places; i++) if (i != first) { say_call(i, 0); said++ }
  if (valued > most_values) printf "  (and %d values more: pvrun where)\n", valued - most_values
  if (calls + untold > said) printf "  (and %d calls more: pvrun where)\n", calls + untold - said
}

FILENAME == ARGV[1] { take($0); next }
FNR == 1 { for (i in at) if (at[i] > last) last = at[i] }
is_marker($0) {
  split($0, part, /[^0-9]+/)
  line = ($0 ~ /^[0-9]/ ? part[1] : part[2]) + 0
  match($0, /"([^"\\]|\\.)*"/)
  name = substr($0, RSTART + 1, RLENGTH - 2)
  marked = 1
  next
}
{ note_line($0) }
FNR > last + most_lines { exit }
END { say() }
