# For ./pvrun: the files that it reads and writes.
# shellcheck shell=bash disable=SC2034,SC2154

# The folder for files of this call, in `held`.
hold() {
  [ -z "$held" ] || return 0
  held=$(mktemp -d 2>/dev/null) && { echo >"$held/first"; } 2>/dev/null && return
  say "temporary files can't be written (in ${TMPDIR:-/tmp})"
  exit 127
}

# Commands that the launcher can't do without.
want() {
  local name
  for name in "$@"; do
    command -v "$name" >/dev/null || { say "the command $name is not found, and this source can't be looked at without it" && exit 127; }
  done
}

can_read() { [ -r "$1" ] && [ ! -d "$1" ]; }

# Whether a file can be read more than once, under its name.
is_plain() { [ -f "$1" ] && [[ $1 != /dev/* && $1 != /proc/* ]]; }

# What stands in a pipe is kept in the file HELD, up to a size that tells as much as all.
take_pipe() {
  can_read "$1" && ! is_plain "$1" && hold || return
  attend head -c "$3" -- "$1" >"$held/$2" 2>/dev/null && return
  # (what can't be read is the program's to tell)
  [ ! -s "$held/$2" ] && echo 2>/dev/null >"$held/$2" && return 1
  say "what '$1' holds could not be kept in a file"
  exit 127
}

# How many bytes of a source are looked at: more than a source has, since what is preprocessed may be longer.
most_bytes=16777217

# The first bytes of a file, up to that many.
first_of() { head -c "$most_bytes" -- "$1" 2>/dev/null; }

# Whether the source has preprocessing directives. Most files without any are known by having no # at all.
has_directives() {
  local part='' status
  if IFS= LC_ALL=C read -r -d '' -n 16384 part 2>/dev/null <"$1" || [ "${#part}" -ge 16384 ]; then
    want head grep awk
    first_of "$1" | LC_ALL=C grep -qaE '#|%:' || return
  else
    [[ $part == *'#'* || $part == *'%:'* ]] || return
  fi
  want head awk
  first_of "$1" | LC_ALL=C awk -f "$tools/lines.awk" -f "$tools/directives.awk" >/dev/null
  status=$?
  [ "$status" -le 1 ] || { say "awk could not look for directives in '$1'" && exit 127; }
  return "$status"
}

# The file that the program gets, in `text`; `unread` is a file that can't be read, and `fresh` says that the text was preprocessed just now.
take_files() {
  local given=$source
  text=$source unread='' fresh=''
  take_pipe "$source" source.c "$most_bytes" && text=$held/source.c given=-
  can_read "$text" || unread=$source
  [ -z "$script" ] || take_script
  [ -z "$unread" ] || return 0
  [ -z "$input" ] || take_input
  if [ -z "$raw" ] && { [ "${#changes[@]}" -gt 0 ] || [ -n "$input" ] || has_directives "$text"; }; then
    hold
    attend "$tools/preprocess" "$given" "$held/text.i" --marks ${quiet:+--quiet} ${input:+--input "$input"} ${changes[@]+"${changes[@]}"} <"$text" || exit 127
    text=$held/text.i fresh=--fresh
  fi
  [ -z "$raw" ] || [ -z "$input" ] || [ -n "$quiet" ] || say "note: --raw never preprocesses, so '$input' is not read"
  [ -z "$keep" ] || attend cat -- "$text" 2>/dev/null >"$keep" || { say "'$keep' could not be written" && exit 127; }
}

# The bytes that the program finds on its standard input. A pipe is read once, up to more bytes than a source can have.
take_input() {
  can_read "$input" || { say "'$input' could not be read" && exit 127; }
  take_pipe "$input" input 1048577 && input=$held/input
}

take_script() {
  local name=${handed[script]} i
  can_read "$name" || unread=$name
  take_pipe "$name" script 65537 || return 0
  handed[script]=$held/script
  for ((i = 0; i < ${#again[@]}; i += 2)); do
    [ "${again[i]}" != --script ] || again[i + 1]=$held/script
  done
}

# A file that is written is none of those that are read, and can be written: looked at before a run, and before a proof.
guard_files() {
  local name others=("$keep" "$report" "$sarif" "$errors")
  for name in "$keep" "$report" "$sarif" "$errors"; do
    others=("${others[@]:1}")
    [ -n "$name" ] || continue
    if [ "$name" -ef "$source" ] || { [ -n "$input" ] && [ "$name" -ef "$input" ]; } || { [ -n "$script" ] && [ "$name" -ef "${handed[script]}" ]; }; then
      say "'$name' is read, so it can't be written"
      exit 127
    fi
    # (who reads a pipe would take this for the end)
    [ -p "$name" ] || { : >>"$name"; } 2>/dev/null || { say "'$name' can't be written" && exit 127; }
    is_among "$name" ${others[@]+"${others[@]}"} && say "'$name' would be written twice" && exit 127
  done
}

# Whether a plain file is also one of the others.
is_among() {
  local name
  for name in "${@:2}"; do
    if [ -f "$1" ] && [ "$1" -ef "$name" ]; then return; fi
  done
  return 1
}
