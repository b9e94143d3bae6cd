# od -An -v -tx1 | awk -f tools/streams.awk: a program's output, as bytes in hexadecimal, in two streams: what stands between marks goes to the stream that they
# name, and all else to standard output; the marks go nowhere. A mark is ESC _ H S ESC \ with the digits H of ENVIRON MARK and the stream S, 1 or 2; one of
# stream 1 ends a piece. Bytes are handed on as they come, and never more than a mark's length of them is kept. Ends with 3 where marks don't
# come in pairs: then the program wrote one of its own; and with 4 more where what went to stream 2 lacks its last line feed.
BEGIN {
  for (i = 0; i < 256; i++) byte[sprintf("%02x", i)] = sprintf("%c", i)
  has_null = length(byte["00"]) == 1
  begins = "\033_" ENVIRON["MARK"]
  size = length(begins)
  for (i = 1; i <= size; i++) for (code in byte) if (byte[code] == substr(begins, i, 1)) wanted[i] = code
  stream = "/dev/stdout"
  is_whole = 1
}

function flush() {
  if (out != "") {
    printf "%s", out >stream
    note(substr(out, length(out)) != "\n")
  }
  out = ""
}

# Whether what goes to stream 2 is within a line now.
function note(is_within) {
  if (stream == "/dev/stderr") is_within_line = is_within
}

function emit(code) {
  if (code == "00" && !has_null) {
    flush()
    printf "%c", 0 >stream
    note(1)
  } else {
    out = out byte[code]
  }
}

# What seemed to be a mark is none.
function give_up(    i) {
  for (i = 1; i <= met; i++) emit(kept[i])
  met = 0
}

# Whether a byte is the next one of a mark.
function fits(code) {
  if (met < size) return code == wanted[met + 1]
  if (met == size) return code == "31" || code == "32"
  return code == (met == size + 1 ? "1b" : "5c")
}

# A whole mark: the first of a pair names the stream, and the second one ends the piece.
function turn(letter) {
  flush()
  fflush(stream)
  if (is_open && letter != "31") is_whole = 0
  is_open = !is_open
  stream = letter == "32" ? "/dev/stderr" : "/dev/stdout"
  met = 0
}

function take(code) {
  if (met && !fits(code)) give_up()
  if (!fits(code)) {
    emit(code)
    return
  }
  kept[++met] = code
  if (met == size + 3) turn(kept[size + 1])
}

{
  if (!met && !index($0, "1b")) for (i = 1; i <= NF; i++) if ($i == "00") emit("00"); else out = out byte[$i]
  else for (i = 1; i <= NF; i++) take($i)
  flush()
  if (NR % 64 == 0) fflush(stream)
}
END {
  give_up()
  flush()
  fflush(stream)
  exit (!is_whole || is_open ? 3 : 0) + (is_within_line ? 4 : 0)
}
