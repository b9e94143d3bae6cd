# For ./pvrun and tools/explain-fault: where a program's report begins behind its output, and that it begins a line.
# shellcheck shell=bash disable=SC2154,SC2034  # (variables of pvrun)

# The shape of a report's line behind the output of a run, by the status.
report_shape() {
  case $1 in
    0) echo 'exit status=-?[0-9]+ turn=[0-9]+$' ;;
    1) echo 'undefined clause=[0-9.]+p[0-9]+ reason=[a-z]+ line=[0-9]+ turn=[0-9]+$' ;;
    2) echo 'indeterminate line=[0-9]+ turn=[0-9]+$' ;;
    3) echo 'undecided line=[0-9]+ turn=[0-9]+$' ;;
    4) echo 'placement reason=[a-z]+ name=[@A-Za-z_0-9]+ k=[0-9]+ line=[0-9]+ turn=[0-9]+$' ;;
    5) echo 'storage live=[0-9]+ size=[0-9]+ line=[0-9]+ turn=[0-9]+$' ;;
    6) echo 'turns bound=[0-9]+$' ;;
    7) echo 'abort line=[0-9]+ turn=[0-9]+$' ;;
    14) echo 'sides ended pair=[0-9]+$' ;;
  esac
}

# How many bytes stand before the report in the file WRITTEN, which a run with this status wrote; nothing where there is no report.
#
# The report is the last line of that shape, or the end of it, since output need not end its line. No line of a watcher has such a shape, nor has that
# of sides, and none holds another one within it.
report_begins() {
  local written=$1 shape
  shape=$(report_shape "$2")
  [ -n "$shape" ] && LC_ALL=C grep -aboE -- "$shape" "$written" | tail -n 1 | cut -d: -f1
}

# Whether what a file WRITTEN holds before the byte BEGINS, where a report begins, lacks its last line feed.
lacks_line_feed() { [ "${2:-0}" -gt 0 ] && [ -n "$(head -c "$2" "$1" | tail -c 1 | tr '\n\000' '\000x' | tr -d '\000')" ]; }

# Writes what a file WRITTEN holds, with a line feed before the byte BEGINS, where a report begins, if the output before it lacks its last one.
write_in_lines() {
  if lacks_line_feed "$1" "$2"; then
    attend head -c "$2" "$1" && echo && attend tail -c "+$(($2 + 1))" "$1"
  else
    attend cat "$1"
  fi
} 2>/dev/null

# Runs the program, and sets its status. All that it writes is handed on meanwhile, but for its last bytes, before which a line feed may be
# wanted: those of a report, and of the texts behind it. What prints nothing, or can't be held, is handed on as it is. `handing` is the process
# that hands on, which a signal that ends this call ends too.
run_in_lines() {
  local most=4096
  [[ "$mode ${handed[*]-}" != settle* && "${handed[*]-}" != *--watch* ]] || most=16777216
  if ! first_of "$text" | grep -qaF printf || ! { : >&1; } 2>/dev/null || ! hold_end || ! exec 8> >(hand_on "$most" 2>/dev/null); then
    run
    status=$?
    return
  fi
  handing=$!
  run >&8
  status=$?
  exec 8>&-
  wait "$handing" && write_in_lines "$held/end" "$(report_begins "$held/end" "$status")" || status=12
  handing=''
}

# A folder for the last bytes, and a pipe to them, if there can be any.
hold_end() {
  [ -n "$held" ] || held=$(mktemp -d 2>/dev/null) || { held='' && return 1; }
  command -v tee >/dev/null && mkfifo "$held/last" 2>/dev/null
}

# Hands standard input on but for its last bytes, up to that many, which go to a file. Where nobody takes more it ends, so that the program hears of it.
hand_on() {
  local end front
  set -o pipefail
  tail -c "$1" <"$held/last" >"$held/end" 8>&- &
  end=$!
  # (a job has an empty input where nobody gives it another one)
  tee --output-error=exit "$held/last" <&0 8>&- | head -c "-$1" 8>&- &
  front=$!
  trap 'kill "$end" "$front" $(jobs -p)' TERM
  # (a pipe that could not be opened here would be waited for there)
  wait "$front" || { kill "$end" && return 1; }
  wait "$end"
}
