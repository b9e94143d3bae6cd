# For ./pvrun: reads the words that it is called with.
# shellcheck shell=bash disable=SC2034

# Sets mode, source and what the options say; the first word that is none is told in `slip`. `handed` are the program's own options (the name of
# the script's file is that numbered `script`), `again` those of them that a second run needs (but the sides: `sided`), `changes` the options of
# preprocessing.
read_words() {
  mode=${1-} source=${2-} slip='' handed=() again=() changes=() raw='' keep='' report='' sarif='' errors='' input='' quiet='' leaks='' script='' sided=''
  case $mode in
    run | settle | check | layout)
      if [ $# -lt 2 ]; then
        slip="$mode wants a file"
      elif [ -z "$source" ]; then
        slip='the name of the file is empty'
      elif [ "$source" = - ] && [ ! -e - ]; then
        slip="standard input is called /dev/stdin: pvrun $mode /dev/stdin"
      elif [[ $source == -* ]] && [ ! -e "$source" ]; then
        slip="the file comes first: pvrun $mode FILE $source"
      fi
      ;;
    gen) [[ $source =~ ^[1-9][0-9]{0,3}$ && $source -le 8192 ]] || slip='gen takes one number, from 1 to 8192 without a leading zero' ;;
    '') slip='no mode; try ./pvrun --help' ;;
    *.c | *.i) slip="'$mode' is no mode; try pvrun run $mode" ;;
    *) slip="'$mode' is no mode (run, settle, check, layout, gen, replay, step, where, page, explore, suite)" ;;
  esac
  lowering=()
  [ $# -le 2 ] || read_options "${@:3}"
  [ -z "$leaks" ] || [ -z "$quiet" ] || [ -n "$slip" ] || slip='--leaks says words, and --quiet wants none'
  [ -z "$raw" ] || [ "${#lowering[@]}" = 0 ] || slip='--lower reads what was preprocessed, so it goes not with --raw'
  # (they stand after all other options of preprocessing)
  [ "${#lowering[@]}" = 0 ] || { changes+=(--lower ${quiet:+--quiet} "${lowering[@]:1}") && export PV_LOWERED=yes; }
}

read_options() {
  while [ $# -gt 0 ] && [ -z "$slip" ]; do
    case $mode$1 in
      *--quiet) quiet=yes && shift && continue ;;
      gen--report) ;;
      gen*) slip="gen takes no option '$1'" ;;
      *--raw) raw=yes && shift && continue ;;
      run--leaks) leaks=yes && shift && continue ;;
      *--report | *--keep | *--drop | *--input | *-[IDU]) ;;
      *--lower) lowering=(--lower) && shift && continue ;;
      run--args | settle--args)
        [ "${#lowering[@]}" -gt 0 ] || slip='--args hands arguments to a main that --lower writes out, and stands last, after --lower'
        lowering+=("$@")
        return
        ;;
      *-[IDU]?*) changes+=("$1") && shift && continue ;;
      run--script | run--turns | run--zap | run--watch | run--sarif | run--stderr | settle--stderr) ;;
      settle--script | settle--turns | settle--zap | settle--sides) ;;
      "$mode"-*) slip="'$1' is no option of $mode" ;;
      *) slip="'$1' is a second file, and $mode takes one (a source can #include others)" ;;
    esac
    if [ -z "$slip" ] && [ $# -lt 2 ]; then slip="$1 wants a value"; fi
    [ -n "$slip" ] || read_value "$1" "$2"
    shift $(($# < 2 ? $# : 2))
  done
}

# An option that has a value, and the value.
read_value() {
  case $1 in
    -[IDU]) [ -n "$2" ] && changes+=("$1$2") || slip="$1 wants a value" ;;
    --drop) [[ $2 =~ ^(restrict|volatile|attributes)$ ]] && changes+=(--drop "$2") || slip="'$2' is no word that --drop takes away (restrict, volatile, attributes)" ;;
    --keep) keep=$2 ;;
    --report) report=$2 ;;
    --sarif) sarif=$2 ;;
    --stderr) errors=$2 ;;
    --input) input=$2 ;;
    *) read_run_value "$1" "$2" && handed+=("$1" "$2") ;;
  esac
  case $1 in
    --keep | --report | --sarif | --stderr | --input) [ -n "$2" ] || slip="the name after $1 is empty" ;;
    --script | --turns | --zap) again+=("$1" "$2") ;;
    --sides) sided=$2 ;;
  esac
}

# An option of the program's own.
read_run_value() {
  local seen=" ${handed[*]-} "
  case $1 in
    --script)
      [ -z "$script" ] || slip='--script stands twice'
      [ -n "$2" ] || slip="the name of the script's file is empty"
      script=$((${#handed[@]} + 1))
      ;;
    --turns)
      [[ $seen != *' --turns '* ]] || slip='--turns stands twice'
      [[ $2 =~ ^[1-9][0-9]{0,8}$ && $2 -le 100000000 ]] || slip="'$2' is no number from 1 to 100000000 without a leading zero"
      ;;
    --zap)
      [[ $seen != *' --zap '* ]] || slip='--zap stands twice'
      [[ $2 =~ ^(on|off)$ ]] || slip="'$2' is neither on nor off"
      ;;
    --sides)
      [[ $seen != *' --sides '* ]] || slip='--sides stands twice'
      [[ $2 =~ ^(-|[lh]+)$ ]] || slip="'$2' is neither - nor letters l and h"
      ;;
    --watch)
      [[ $seen != *" --watch $2 "* ]] || slip="--watch $2 stands twice"
      [[ $2 =~ ^(explain|census|pointers)$ ]] || slip="'$2' is no watcher (explain, census, pointers)"
      ;;
  esac
}
