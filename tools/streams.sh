# For ./pvrun: what a program writes to stderr by name goes to standard error, or to the file of --stderr. The headers put such a piece between marks
# (include/pv_error.h), and tools/streams.awk takes them out.
# shellcheck shell=bash disable=SC2034,SC2154  # (variables of pvrun)

# The digits of the marks of the text, in `mark`; nothing where it has none.
find_mark() {
  mark=$(LC_ALL=C grep -aoE -m 1 '\\033_[0-9a-f]{16}["12%]' -- "$text" 2>/dev/null | head -n 1)
  mark=${mark:5:16}
  [ -z "$mark" ] || LC_ALL=C grep -qa '__letter(' -- "$text" || mark=''
  # (who reads a pipe would take this for the end)
  [ -z "$errors" ] || [ -p "$errors" ] || : >"$errors" || exit 127
}

# Standard input, in two streams.
split_streams() {
  if [ -n "$errors" ]; then exec 2>"$errors"; fi
  od -An -v -tx1 2>/dev/null | MARK=$mark LC_ALL=C awk -f "$tools/streams.awk"
}

# What is said of a splitting that ended so; and words that follow begin a line, where the program's standard error lacks its last line feed.
judge_splitting() {
  case $1 in 4 | 7) [ -n "$errors" ] || within_line=yes ;; esac
  case $1 in
    0 | 4) ;;
    3 | 7)
      [ "$status" -gt 9 ] || {
        begin_line
        say 'the program wrote a mark of its own, so what it wrote to standard output and to standard error may not be told apart rightly'
      }
      ;;
    *) say 'the output could not be written' && status=12 ;;
  esac
}

# The program's run, in two streams while it goes on.
run_in_streams() {
  local into splitter
  exec {into}> >(split_streams)
  splitter=$!
  run_program >&"$into" {into}>&-
  status=$?
  exec {into}>&-
  wait "$splitter"
  judge_splitting "$?"
  return "$status"
}
