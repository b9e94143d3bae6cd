# awk -f tools/extensions.awk tools/extensions.txt TEXT: a preprocessed text without what means nothing to a run: the words inline, register and _Noreturn,
# attributes all of whose names are harmless, and pragmas. Each goes to blanks, so that lines and columns stay. Others stay where they are, for the
# program to refuse them there. ENVIRON has
#   AWAY    more words that go, with blanks between them
#   NAME    the source's name, for places before the first line marker
#   NOTES   the file for notes: pragmas that are not known, and what DROP takes away
#   DROP    takes away all of them, and asm labels and __thread, where it is not empty
#   MARK, INPUT  what stands in marks, and a file with a string literal, for the names __pv_mark and __pv_input_bytes that the headers have
#   TELL    where it is not empty, the text is not written, but hints of what stands in it
BEGIN {
  name = ENVIRON["NAME"]
  notes = ENVIRON["NOTES"]
  drop = ENVIRON["DROP"]
  tell = ENVIRON["TELL"]
  line = 1
  literal_form = "\"([^\"\\\\]|\\\\.)*\"|'([^'\\\\]|\\\\.)*'|/\\*|//"
  # (where no label is looked for, most tokens are passed over)
  count = split("inline register _Noreturn " ENVIRON["AWAY"], part, " ")
  for (i = 1; i <= count; i++) {
    away[part[i]] = 1
    words = words "|" part[i]
  }
  token_form = literal_form "|__attribute|__attribute__|_Pragma|asm|__asm|__asm__|__thread|__pv_mark|__pv_input_bytes" words
  if (drop) token_form = literal_form "|[A-Za-z_0-9]+|[^ \t\n]"
  looked_for = "__attribute|_Pragma|__thread|asm|__pv_|/\\*" words
  goes_by = "; --drop attributes takes it away"
  gone = goes_by ", so another program is run"
  asm_words = "asm is assembly, which has no meaning in C17, or gives a name another one: such a label goes by --drop attributes"
  not_preprocessed = " where a source is preprocessed, and this one was not (-D or --drop asks for that)"
}

function is_line_marker(text) { return text ~ /^[ \t]*#[ \t]*(line[ \t]+)?[0-9]+[ \t]+"/ }

# A line marker sets the number of the next line, and the name.
function take_marker(text) {
  match(text, /[0-9]+/)
  line = substr(text, RSTART, RLENGTH) + 0
  match(text, /"([^"\\]|\\.)*"/)
  name = substr(text, RSTART + 1, RLENGTH - 2)
}

# The same text in blanks. Tabs and line markers stay.
function blanked(text,    part, n, i, made) {
  n = split(text, part, "\n")
  for (i = 1; i <= n; i++) {
    if (i == 1 || !is_line_marker(part[i])) gsub(/[^\t]/, " ", part[i])
    made = made (i > 1 ? "\n" : "") part[i]
  }
  return made
}

# FILE:LINE of what stands behind `before` in the lines that are looked at.
function place(before,    part, n, i, file, number) {
  file = name
  number = line
  n = split(before, part, "\n")
  for (i = 1; i < n; i++) {
    if (match(part[i], /^[ \t]*#[ \t]*[0-9]+[ \t]+"/)) {
      match(part[i], /[0-9]+/)
      number = substr(part[i], RSTART, RLENGTH) - 1
      match(part[i], /"([^"\\]|\\.)*"/)
      file = substr(part[i], RSTART + 1, RLENGTH - 2)
    }
    number++
  }
  gsub(/[\001-\037\177]/, "?", file)
  return file ":" number
}

# What is said once of each thing, at its first place.
function note(before, text) {
  if (text in noted || ++told > 20) return
  noted[text] = 1
  if (tell) print place(before) ": note: " text
  else if (notes != "") print place(before) ": note: " text >notes
}

# ---- attributes

# Where the parenthesis closes that the text opens first: 0 where it doesn't, and -1 where none is opened.
function closing(text,    at, depth, found) {
  at = 0
  depth = 0
  if (text ~ /^[ \t\n]*$/) return 0
  if (text !~ /^[ \t\n]*(#[^\n]*\n[ \t\n]*)*\(/) return -1
  while (match(text, /[()]|"([^"\\]|\\.)*"|'([^'\\]|\\.)*'/)) {
    found = substr(text, RSTART, 1)
    at += RSTART + RLENGTH - 1
    text = substr(text, RSTART + RLENGTH)
    if (found == "(") depth++
    else if (found == ")" && !--depth) return at
  }
  return 0
}

# A name without the underscores round it.
function plain(word) {
  if (word ~ /^__.*__$/) return substr(word, 3, length(word) - 4)
  return word
}

# Whether options of optimization are among these arguments that make other rules of the language.
function bends_rules(arguments) { return arguments ~ /wrapv|trapv|alias|overflow|null|enums|pack|char|math|fp|common/ }

# What an attribute changes: the sentence of the first of its names that changes something, or nothing; the name in `changer`.
function attribute_meaning(text,    depth, part, word, arguments) {
  gsub(/(^|\n)[ \t]*#[^\n]*/, "\n", text)
  if (text !~ /^[ \t\n]*\([ \t\n]*\(/) { changer = "?"; return "has no form that is known" }
  word = arguments = ""
  changer = ""
  depth = 0
  while (match(text, /[A-Za-z_0-9]+|"([^"\\]|\\.)*"|'([^'\\]|\\.)*'|[(),]/)) {
    part = substr(text, RSTART, RLENGTH)
    text = substr(text, RSTART + RLENGTH)
    if (part == "(") depth++
    if (depth == 2 && word == "" && part ~ /^[A-Za-z_]/) word = plain(part)
    else arguments = arguments part
    if (part == ")") depth--
    if (depth == 1 || (depth == 2 && part == ",")) {
      if (word != "" && !is_harmless("attribute", word, arguments)) { changer = word; return meaning("attribute", word) }
      word = arguments = ""
    }
  }
  return ""
}

function is_harmless(kind, word, arguments) {
  if (word == "optimize" || word == "GCC-optimize") return !bends_rules(arguments)
  if (word == "pack") return packs_nothing(arguments)
  return (kind " " word) in harmless
}

# Whether a pack leaves each alignment as it is: it asks for no number, or for one that no type's alignment exceeds.
function packs_nothing(arguments) { return arguments ~ /^[ \t]*\([ \t]*(push|pop|show)?[ \t]*,?[ \t]*(8|16|32|64|128)?[ \t]*\)/ }

function meaning(kind, word) { return (kind " " word) in means ? means[kind " " word] : "is not known here, so it may mean something" }

# An attribute, as it is written from then on.
function attribute(before, text, whole,    says, shown) {
  says = attribute_meaning(text)
  if (says == "") {
    if (tell) note(before, "an attribute is taken away" not_preprocessed)
    return blanked(whole)
  }
  shown = "__attribute__((" changer "))"
  if (drop) { note(before, shown " " says gone); return blanked(whole) }
  if (tell) note(before, shown " " says goes_by)
  return whole
}

# ---- pragmas

# Whether a pragma goes, by what stands behind the word; what is to be said of it is noted.
function goes(before, text,    word, more, says) {
  sub(/^[ \t]+/, "", text)
  match(text, /^[A-Za-z_0-9]*/)
  word = substr(text, 1, RLENGTH)
  text = substr(text, RLENGTH + 1)
  if (word ~ /^(GCC|clang|STDC)$/) {
    match(text, /^[ \t]*[A-Za-z_0-9]*/)
    more = substr(text, 1, RLENGTH)
    text = substr(text, RLENGTH + 1)
    sub(/^[ \t]+/, "", more)
    word = word "-" more
  }
  if (word == "" || is_harmless("pragma", word, text)) return 1
  says = word
  sub(/-/, " ", says)
  if (!(("pragma " word) in means)) {
    if (!tell) note(before, "#pragma " says " is not known, so it is ignored (C17 6.10.6p1)")
    return 1
  }
  if (drop) note(before, "#pragma " says " " means["pragma " word] gone)
  else if (tell) note(before, "#pragma " says " " means["pragma " word] goes_by)
  return drop != ""
}

# The text of a _Pragma's string (C17 6.10.9p1).
function destringized(text) {
  sub(/^[^"]*"/, "", text)
  sub(/"[^"]*$/, "", text)
  gsub(/\\"/, "\"", text)
  gsub(/\\\\/, "\\", text)
  return text
}

# A line that begins with # and is no line marker.
function directive(text) {
  if (text ~ /^[ \t]*#[ \t]*pragma([^A-Za-z_0-9]|$)/ && !goes("", substr(text, index(text, "pragma") + 6))) return text
  return ""
}

# ---- the text

# What becomes of a token with a parenthesis behind it, up to `end` in what follows.
function spanned(token, before, follows) {
  if (token ~ /^__attribute/) return attribute(before, follows, token follows)
  if (token == "_Pragma") return goes(before, destringized(follows)) ? blanked(token follows) : token follows
  # behind a declarator stands a label, and anywhere else a statement, which stays
  if (drop && (last ~ /^[A-Za-z_\]]/ && last !~ /^(else|do|return)$/ || last == ")" && !depth) && follows ~ /^[ \t\n]*\([ \t\n]*["']/) {
    note(before, "an asm label gives the name another one in the linked program" gone)
    return blanked(token follows)
  }
  if (tell && follows ~ /["']/) note(before, asm_words)
  return token follows
}

# What becomes of a token that stands alone.
function alone(token, before) {
  if (token in away) {
    if (tell) note(before, "the word " token " is taken away" not_preprocessed)
    return blanked(token)
  }
  if (token == "__thread") {
    if (drop) { note(before, "__thread gives each thread an object of its own" gone); return blanked(token) }
    if (tell) note(before, "__thread gives each thread an object of its own" goes_by)
  }
  if (token == "__pv_mark") return "\"\\033_" ENVIRON["MARK"] "\""
  if (token == "__pv_input_bytes") { token = ""; while ((getline piece < ENVIRON["INPUT"]) > 0) token = token piece; return token }
  if (token == "{") depth++
  if (token == "}" && depth) depth--
  return token
}

# Takes lines as a whole: what they become is in `made`. 0 where what begins in them goes on.
function taken(text,    token, end) {
  made = ""
  if (commented) {
    end = index(text, "*/")
    if (!end) { made = text; return 1 }
    made = substr(text, 1, end + 1)
    text = substr(text, end + 2)
    commented = 0
  }
  while (match(text, token_form)) {
    made = made substr(text, 1, RSTART - 1)
    token = substr(text, RSTART, RLENGTH)
    text = substr(text, RSTART + RLENGTH)
    if (token == "//") break
    if (token ~ /^[A-Za-z_]/ && (made ~ /[A-Za-z_0-9]$/ || text ~ /^[A-Za-z_0-9]/)) {
      # (a part of another name)
      match(text, /^[A-Za-z_0-9]*/)
      made = made token substr(text, 1, RLENGTH)
      text = substr(text, RLENGTH + 1)
      token = ""
      continue
    }
    if (token == "/*") {
      end = index(text, "*/")
      if (!end) { commented = 1; break }
      token = token substr(text, 1, end + 1)
      text = substr(text, end + 2)
    } else if (token ~ /^(__attribute|__attribute__|_Pragma|asm|__asm|__asm__)$/) {
      end = closing(text)
      if (end == 0) return 0
      if (end > 0) {
        token = spanned(token, made, substr(text, 1, end))
        text = substr(text, end + 1)
      } else if (tell && token ~ /asm/ && text ~ /^[ \t]*(__)?(volatile|goto)/) {
        note(made, asm_words)
      }
    } else {
      token = alone(token, made)
      if (token !~ /^ *$/) last = token
    }
    made = made token
    token = ""
  }
  made = made token text
  return 1
}

# Writes lines, and counts them.
function put(text,    part, n, i) {
  if (!tell) print text
  n = split(text, part, "\n")
  if (!n) line++
  for (i = 1; i <= n; i++)
    if (is_line_marker(part[i])) take_marker(part[i])
    else line++
}

FILENAME == ARGV[1] {
  if ($1 == "harmless") for (i = 3; i <= NF; i++) harmless[$2 " " $i] = 1
  else if ($1 ~ /^(attribute|pragma)$/) means[$1 " " $2] = substr($0, length($1 " " $2) + 2)
  next
}
held == "" && !commented && /^[ \t]*#/ {
  if (is_line_marker($0)) {
    sub(/#[ \t]*line[ \t]+/, "# ")
    take_marker($0)
    if (!tell) print
  } else {
    $0 = directive($0)
    if (!tell) print
    line++
  }
  next
}
held == "" && !commented && !drop && $0 !~ looked_for { if (!tell) print; line++; next }
{
  if (begun) {
    held = held "\n" $0
    depth = begun_depth
    commented = begun_commented
    last = begun_last
  } else {
    held = $0
    begun = 1
    begun_depth = depth
    begun_commented = commented
    begun_last = last
  }
  # (what never closes is given up, since each line more is another look at all)
  if (length(held) < 65536 && !taken(held)) next
  put(length(held) < 65536 ? made : held)
  held = ""
  begun = 0
}
END { if (begun) put(held) }
