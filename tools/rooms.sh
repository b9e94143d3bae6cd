# For tools/prove and tools/room, from the top of the repository: the rooms in which crates are proved.
# shellcheck shell=bash disable=SC2154

# A copy by links, or a true one where there can be no links.
give() { cp -al "$1" "$2" 2>/dev/null || { rm -rf "$2" && cp -a "$1" "$2"; }; }

# Runs a command while no rt works in the crate's folder in the checkout (-x), or none but what reads it too (-s).
in_turn() {
  (
    flock "$1" 8
    "${@:3}"
  ) 8<"crates/$2"
}

# The file in the folder out/ that tells what was made: the program, or rt's stamp of the library.
result() { if [ -f "crates/$2/src/main.rt" ]; then echo "$1/$2"; else echo "$1/rlib/stamp"; fi; }
made_of() { sha256sum <"$(result "crates/$1/out" "$1")" | cut -d' ' -f1; }

# Removes a room. What a check had kept by then goes back to the checkout, for the next one to go on from.
leave() {
  local kept=$rooms/$1/crates/$1/out/incremental
  [ -d "$kept" ] && [ ! -e "crates/$1/out/incremental" ] && mkdir -p "crates/$1/out" && mv "$kept" "crates/$1/out/incremental"
  rm -rf "${rooms:?}/$1"
}
