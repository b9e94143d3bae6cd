# For ./pvrun, tools/prove and tools/unproved, from the top of the repository: what a program is made from, and whether it is made from that
# as it is now. The programs are pvrun, pvwhere, which shows where a refusal is, pv_replay, which writes and checks journals, pv_step, which
# answers commands about single turns, and pv_state, which tells where a run stands; each stands in crates/NAME/out/NAME.
# shellcheck shell=bash disable=SC2185

# What a program BUILT is looked for in, in the array `roots`: the program, and the folders of sources that the crates behind it have.
source_roots() {
  local crate part
  roots=(crates.txt "$1")
  for crate in "${@:2}"; do
    for part in src specs proofs; do
      [ -d "crates/$crate/$part" ] && roots+=("crates/$crate/$part")
    done
  done
}

# The files of the crates and the file BUILT, made of them: name, size and time of change, in the order in which they lie.
sources_of() {
  local roots
  source_roots "$@"
  echo "${*:2}"
  find "${roots[@]}" -type f -printf '%p %s %C@\n' 2>/dev/null
}

# The same for the proved program NAME.
sources() { sources_of "crates/$1/out/$1" "${@:2}"; }

# Whether BUILT was made of the sources as they are, by the listing in STAMP.
#
# Beside it, STAMP.names lists files and folders; its own time is one at which all was as in STAMP. As long as none of these has changed since
# (a file that came or went changes its folder), the long look is spared: it opens a thousand folders.
is_made() {
  local built=$1 stamp=$2 names=$2.names crates
  [ -x "$built" ] && [ -r "$stamp" ] || return
  [ -r "$names" ] && find -files0-from "$names" -maxdepth 0 -cnewer "$names" -exec false {} + 2>/dev/null && return
  read -r -a crates <"$stamp" && note_names "$built" "$stamp" "${crates[@]}"
}

# Looks whether all is as in STAMP, and if so, notes the names and the time before the look.
note_names() {
  local built=$1 stamp=$2 roots
  { : >"$stamp.look"; } 2>/dev/null || { sources_of "$built" "${@:3}" | cmp -s - "$stamp"; return; }
  source_roots "$built" "${@:3}"
  find "${roots[@]}" -print0 >"$stamp.names"
  touch -r "$stamp.look" "$stamp.names"
  rm -f "$stamp.look"
  sources_of "$built" "${@:3}" | cmp -s - "$stamp" || { rm -f "$stamp.names"; return 1; }
}

# Whether the program NAME was proved and built from the sources as they are.
is_current() { is_made "crates/$1/out/$1" ".prove/$1.sources"; }
