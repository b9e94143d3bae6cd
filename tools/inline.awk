# awk -f tools/inline.awk TEXT: of a preprocessed text a note for each function that is used, and whose declarations of file scope all have the word
# inline and none extern: such a definition is no external one (6.7.4p7), and what is run is the inline one. ENVIRON has NAME, the source's
# name for places before the first line marker.
BEGIN {
  name = ENVIRON["NAME"]
  line = 1
  token_form = "[A-Za-z_0-9]+|\"([^\"\\\\]|\\\\.)*\"|'([^'\\\\]|\\\\.)*'|/\\*|//|[^ \t]"
}

# A token outside of all braces: the specifiers of a declaration, and the name that stands in front of the first parenthesis.
function outer(token) {
  if (token ~ /^(inline|extern|static|typedef)$/ && !parentheses) has[token] = 1
  if (token == "=" && !parentheses) is_value = 1
  if (token == "(" && !parentheses && !is_value && before ~ /^[A-Za-z_]/ && !is_word(before) && declared == "") { declared = before; at = name ":" line }
  if (token == "(" || token == "[") parentheses++
  if ((token == ")" || token == "]") && parentheses) parentheses--
  if (token == "{" && !parentheses && before == ")" && declared != "") is_body = 1
  if (token == ";" && !parentheses) ended()
}

function is_word(text) { return text ~ /^(void|char|short|int|long|signed|unsigned|_Bool|__attribute__|__attribute|asm|__asm__|_Static_assert)$/ }

# A declaration of file scope has ended.
function ended(    word) {
  if (declared != "" && !("typedef" in has)) {
    times[declared]++
    if (!("inline" in has) || ("extern" in has) || ("static" in has)) other[declared] = 1
    if (is_body && ("inline" in has)) { place[declared] = at; if (!(declared in listed)) { listed[declared] = 1; order[++count] = declared } }
  }
  for (word in has) delete has[word]
  declared = ""
  is_body = is_value = parentheses = 0
}

function take(token) {
  if (token ~ /^[A-Za-z_]/) met[token]++
  if (!braces) outer(token)
  if (token == "{") braces++
  if (token == "}" && braces && !--braces && is_body) { ended(); token = "" }
  before = token
}

/^[ \t]*#[ \t]*[0-9]+[ \t]+"/ && !commented {
  match($0, /[0-9]+/)
  line = substr($0, RSTART, RLENGTH) + 0
  match($0, /"([^"\\]|\\.)*"/)
  name = substr($0, RSTART + 1, RLENGTH - 2)
  next
}
/^[ \t]*#/ && !commented { line++; next }
{
  text = $0
  while (text != "") {
    if (commented) {
      end = index(text, "*/")
      if (!end) break
      text = substr(text, end + 2)
      commented = 0
    }
    if (!match(text, token_form)) break
    token = substr(text, RSTART, RLENGTH)
    text = substr(text, RSTART + RLENGTH)
    if (token == "//") break
    if (token == "/*") commented = 1
    else take(token)
  }
  line++
}
END {
  for (i = 1; i <= count; i++) {
    word = order[i]
    if ((word in other) || met[word] == times[word]) continue
    shown = place[word]
    gsub(/[\001-\037\177]/, "?", shown)
    print shown ": note: " word " is inline without extern, so there is no external definition, which C17 wants of a name that is used (6.7.4p7, 6.9p5): its inline definition is run"
  }
}
