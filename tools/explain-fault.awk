# For tools/explain-fault, after tools/lines.awk: reads the table of sentences, the report with its story, and the source; says in words what
# happened, where, and to which objects. ENVIRON has ASKED (the source's name), FRESH (whether the files that line markers name are as they
# were when the source was made), MET (what tools/placement.sh tells) and COLOUR.
BEGIN {
  if (ENVIRON["COLOUR"]) { bold = "\033[1m"; red = "\033[1;31m"; plain = "\033[0m" }
  name = ENVIRON["ASKED"]
  marked = 0
  line = 1
}

# The value of a KEY=VALUE of the report, or of a line of the story.
function value(text, key) {
  text = " " text
  return match(text, " " key "=[^ ]*") ? substr(text, RSTART + length(key) + 2, RLENGTH - length(key) - 2) : ""
}

# An instance of the story in words.
function instance(id,    part) {
  split(id, part, "#")
  if (part[1] == "@heap") return "allocation " part[2]
  if (part[1] == "@lit") return "string literal " part[2]
  return part[2] == 1 ? part[1] : part[1] " (instance " part[2] " of that name)"
}

function bytes(size) { return size == 1 ? "1 byte" : size " bytes" }

function when(turn) { return turn == 0 ? "before main" : "at turn " turn }

# Notes the functions that a line declares: what stands in front of a parenthesis outside of all braces.
function note_functions(line,    found) {
  while (match(line, /[A-Za-z_][A-Za-z_0-9]*[ \t]*\(|[{}]/)) {
    found = substr(line, RSTART, RLENGTH)
    line = substr(line, RSTART + RLENGTH)
    if (found == "{") depth++
    else if (found == "}") depth--
    else if (!depth) {
      sub(/[ \t]*\($/, "", found)
      functions[found] = 1
    }
  }
}

# Whether a line may call through a pointer: a parenthesis opens after another one, after an index, a member, or a name of no function.
function may_call(line,    found, before) {
  while (match(line, /[])][ \t]*\(|[A-Za-z_][A-Za-z_0-9]*[ \t]*\(/)) {
    found = substr(line, RSTART, RLENGTH)
    before = substr(line, 1, RSTART - 1)
    line = substr(line, RSTART + RLENGTH)
    sub(/[ \t]*\($/, "", found)
    if (found ~ /^[])]/ || before ~ /(\.|->)[ \t]*$/) return 1
    if (!(found in functions) && found !~ /^(if|while|for|switch|return|sizeof)$/) return 1
  }
  return 0
}

function candidates(text) { return instance(value(text, "low")) " or " instance(value(text, "high")) }

# What a line of the story adds to what is said of an instance or a pair.
function tell(text,    word, id) {
  if (text ~ /^(no fault|cut)$/) { ended[text] = 1; return }
  split(text, word, " ")
  id = word[2]
  if (word[1] ~ /^(pair|use)$/) id = "pair " id
  if (!(id in said)) { order[++told] = id; said[id] = "" }
  if (word[1] == "create") said[id] = bytes(value(text, "size")) " at " value(text, "base") ", made " when(value(text, "turn"))
  if (word[1] == "end") said[id] = said[id] ", ended " when(value(text, "turn"))
  if (word[1] == "expose" && said[id] !~ /known/) said[id] = said[id] ", known to integers since turn " value(text, "turn")
  if (word[1] == "pair") said[id] = "an integer became a pointer to " value(text, "address") " (turn " value(text, "turn") "), to " candidates(text)
  if (word[1] == "use" && value(text, "left") !~ /,/) said[id] = said[id] "; a use took it for " instance(value(text, "left")) " (turn " value(text, "turn") ")"
}

# What the line of the report says: kind, clause or kind again, reason, line and turn.
function judge(report,    word) {
  split(report, word, " ")
  told_as = report
  kind = key = word[1]
  if (kind == "undefined") key = value(report, "clause")
  reason = value(report, "reason")
  at = value(report, "line") + 0
  turn = value(report, "turn")
}

# The sentence of that, with the clause; what the report's line looks like tells some cases apart.
function what(text,    words) {
  if (key == "6.5.3.2p4" && reason == "outside" && may_call(text)) reason = "called"
  if (kind == "placement" && ENVIRON["MET"]) reason = "default"
  words = sentence[key " " (reason == "" ? "-" : reason)]
  if (words == "") words = told_as
  if (ENVIRON["MET"] ~ /#/) sub(/an instance/, instance(ENVIRON["MET"]), words)
  if (kind == "undefined") return words " [C17 " key "]"
  if (kind == "placement") return words " (request " value(told_as, "k") " for " value(told_as, "name") ")"
  return words
}

# The source's line as its author wrote it, where that file is still as it was, and else as it stands in the source that was run.
function original(text,    file, found, n) {
  if (!ENVIRON["FRESH"]) return text
  file = marked ? unquoted(name) : name
  for (n = 0; n < line && (getline found < file) > 0; n++) text = found
  return text
}

# How grave an outcome is, in the words of compilers: a place that can't be given, a limit and an open order are no faults of the source alone.
function gravity() { return kind ~ /^(placement|storage|undecided)$/ ? "warning" : "error" }

function say(text,    words, i, n) {
  words = bare(text)
  note_functions(words)
  words = what(words)
  text = original(text)
  sub(/\r$/, "", text)
  printf "%s%s:%d:%s %s%s:%s %s: %s (turn %s)\n", bold, shown(marked ? unquoted(name) : name), line, plain, red, gravity(), plain, kind, words, turn
  printf "    %s\n", shown(substr(text, 1, 200))
  n = told > 6 ? 6 : told
  for (i = 1; i <= n; i++) printf "  %s: %s\n", order[i] ~ /^pair/ ? order[i] : instance(order[i]), said[order[i]]
  if (told > n) printf "  (and %d more: --watch explain)\n", told - n
  if (kind ~ /^(undefined|indeterminate|undecided)$/ && ("no fault" in ended) && ("cut" in ended))
    printf "  (which objects these are is not told: a story holds the first 65536 events of a run, and this one had as many before)\n"
}

FILENAME == ARGV[1] { if ($0 !~ /^#/) sentence[$1 " " $2] = substr($0, length($1) + length($2) + 3); next }
FILENAME == ARGV[2] { if (FNR == 1) judge($0); else if ($0 ~ /^(create|end|expose|pair|use) |^(no fault|cut)$/) tell($0); next }
FNR == at { say($0); done = 1; exit }
is_marker($0) {
  split($0, part, /[^0-9]+/)
  line = ($0 ~ /^[0-9]/ ? part[1] : part[2]) + 0
  match($0, /"([^"\\]|\\.)*"/)
  name = substr($0, RSTART + 1, RLENGTH - 2)
  marked = 1
  next
}
{ note_functions(bare($0)); line++ }
END { exit !done }
