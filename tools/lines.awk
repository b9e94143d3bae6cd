# Lines of C as awk sees them, for tools/directives.awk and tools/explain-fault: where comments and line markers stand, and how they are shown.

# The line without its comments, and with its literals emptied. A comment that goes on behind the line is kept in mind in `commented`.
function bare(line,    kept, at) {
  kept = ""
  while (line != "") {
    if (commented) {
      at = index(line, "*/")
      if (!at) return kept
      commented = 0
      line = substr(line, at + 2)
    } else if (match(line, /\/\*|\/\/|["']/)) {
      kept = kept substr(line, 1, RSTART - 1) " "
      line = substr(line, RSTART)
      if (line ~ /^\/\//) return kept
      commented = line ~ /^\/\*/
      if (commented) line = substr(line, 3)
      else if (match(line, /^"([^"\\]|\\.)*"|^'([^'\\]|\\.)*'/)) line = substr(line, RLENGTH + 1)
      else line = substr(line, 2)
    } else {
      return kept line
    }
  }
  return kept
}

# Whether a line that no comment has begun before is a line marker: # 12 "name" and perhaps flags.
function is_marker(line) { return !commented && line ~ /^[ \t]*#[ \t]*[0-9]+[ \t]+"/ }

# A file's name from between the quotes of a line marker.
function unquoted(text,    made, at) {
  made = ""
  while (at = index(text, "\\")) {
    made = made substr(text, 1, at - 1)
    text = substr(text, at + 1)
    if (text ~ /^n/) {
      made = made "\n"
      text = substr(text, 2)
    } else if (text ~ /^[0-7][0-7][0-7]/) {
      made = made sprintf("%c", substr(text, 1, 1) * 64 + substr(text, 2, 1) * 8 + substr(text, 3, 1))
      text = substr(text, 4)
    } else {
      made = made substr(text, 1, 1)
      text = substr(text, 2)
    }
  }
  return made text
}

# Control bytes show as question marks.
function shown(text) { gsub(/[\001-\010\012-\037\177]/, "?", text); return text }
