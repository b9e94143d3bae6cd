# For tools/explain-fault: a default place that is taken by an instance of the script.
# shellcheck shell=bash disable=SC2154

# What the lines of the script that name an address speak of: `NAME K`, a line each.
note_places() { LC_ALL=C sed -nE 's/^([@A-Za-z_][A-Za-z_0-9]*) ([0-9]+) 0x.*/\1 \2/p' "$1"; }

# The script in which the lines that name an address lie far up, but for those numbered from FROM to below TO. A place that the script gives moves no
# default place, so the run is the same up to the request that is looked at.
moved_script() {
  LC_ALL=C awk -v from="$2" -v to="$3" '
    /^[@A-Za-z_][A-Za-z_0-9]* [0-9]+ 0x/ { if (n < from || n >= to) $3 = sprintf("0x4%04x0000000", n); n++ }
    { print }' "$1"
}

# Whether the run ends with the report `wanted` though other lines than these lie far up: then one of these is in the way.
is_met() {
  moved_script "$script" "$1" "$2" >"$room/moved"
  attend_program "$program" run "$source" ${again[@]+"${again[@]}"} --script "$room/moved" >"$room/again" 2>/dev/null
  [ "$(tail -c "$((${#wanted} + 1))" "$room/again")" = "$wanted" ]
}

# Prints which instance of the script stands at the place of the request of the report WANTED, as NAME#K, or `an instance` where that can't be told;
# nothing where the script says itself where the request's is to lie. The rest are the options of the run, with the script among them.
met_instance() {
  local program=$1 source=$2 wanted=$3 script='' again=() name k key keys low=0 high middle
  shift 3
  while [ $# -gt 1 ]; do
    case $1 in --script) script=$2 ;; *) again+=("$1" "$2") ;; esac
    shift 2
  done
  name=${wanted#* name=} k=${wanted#* k=}
  mapfile -t keys < <(note_places "$script")
  for key in ${keys[@]+"${keys[@]}"}; do [ "$key" != "${name%% *} ${k%% *}" ] || return 0; done
  high=${#keys[@]}
  while [ $((high - low)) -gt 1 ]; do
    middle=$(((low + high) / 2))
    if is_met "$low" "$middle"; then high=$middle; else low=$middle; fi
  done
  if is_met "$low" "$high"; then echo "${keys[low]/ /#}"; else echo 'an instance'; fi
}
