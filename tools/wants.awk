# For tools/preprocess, before tools/extensions.awk: writes into the file WANTS, one a line, which parts of the headers of the folder HEADERS a
# text asks for that not every program carries (their objects and literals would move its own), and whether it has the word inline.
BEGIN {
  wants = ENVIRON["WANTS"]
  within = ENVIRON["HEADERS"] "/"
  gsub(/[\\"]/, "\\\\&", within)
}

function want(thing) {
  if (thing in wanted) return
  wanted[thing] = 1
  print thing >wants
}

FILENAME != ARGV[1] && /^#/ { is_header = index($0, "\"" within) > 0 }
FILENAME != ARGV[1] && !is_header && /inline|__error_stream|__input_stream|getc|ungetc|gets|feof|ferror|clearerr|scanf|fread|perror|strerror/ {
  bare_line = " " $0 " "
  gsub(/"([^"\\]|\\.)*"/, " ", bare_line)
  if (bare_line ~ /[^A-Za-z_0-9]inline[^A-Za-z_0-9]/) want("inline")
  if (bare_line ~ /[^A-Za-z_0-9](__error_stream|perror)[^A-Za-z_0-9]/) want("ERROR")
  if (bare_line ~ /[^A-Za-z_0-9](__input_stream|getchar|f?getc|ungetc|fgets|feof|ferror|clearerr|f?scanf|fread)[^A-Za-z_0-9]/) want("INPUT")
  if (bare_line ~ /[^A-Za-z_0-9]perror[^A-Za-z_0-9]/) want("PERROR")
  if (bare_line ~ /[^A-Za-z_0-9](strerror|perror)[^A-Za-z_0-9]/) want("MESSAGES")
}
