# awk -f tools/library.awk tools/clauses.txt REPORT SOURCE: where the report's line stands within a function of the headers of include/, a line that says by
# which clause of the function's own section it is undefined.
function value(text, key) {
  text = " " text
  return match(text, " " key "=[^ ]*") ? substr(text, RSTART + length(key) + 2, RLENGTH - length(key) - 2) : ""
}

function is_among(word, list) { return list == "*" || index("," list ",", "," word ",") > 0 }

# The line of the table that fits, in words.
function tell(    i, part, sentence) {
  for (i = 1; i <= rows; i++) {
    split(row[i], part, " ")
    if (!is_among(within, part[1]) || !is_among(clause, part[2]) || !is_among(reason, part[3])) continue
    if (part[4] == clause) return
    sentence = row[i]
    sub(/^[^ ]+ [^ ]+ [^ ]+ [^ ]+ /, "", sentence)
    printf "  so by the function's own section, in %s: %s [C17 %s]\n", (within ~ /^_/ ? "<" header ">" : within), sentence, part[4]
    return
  }
}

FILENAME == ARGV[1] { if ($0 !~ /^#/) row[++rows] = $0; next }
FILENAME == ARGV[2] {
  if (FNR > 1) next
  clause = value($0, "clause")
  reason = value($0, "reason")
  at = value($0, "line") + 0
  next
}
FNR == at { if (header != "" && within != "") tell(); exit }
/^[ \t]*#[ \t]*[0-9]+[ \t]+"/ {
  header = ""
  if (match($0, /\/include\/([a-z]+\/)?[a-z0-9_]+\.h"/)) {
    header = substr($0, RSTART + 9, RLENGTH - 10)
    if (header ~ /^pv_(error|input|messages)/) header = header ~ /messages/ ? "string.h" : "stdio.h"
    if (header ~ /^pv_number/) header = "stdlib.h"
  }
  within = ""
}
header != "" && /^static [^;]*\(/ && match($0, /[A-Za-z_][A-Za-z_0-9]*\(/) { within = substr($0, RSTART, RLENGTH - 1) }
header != "" && /^}/ { within = "" }
