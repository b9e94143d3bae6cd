# Completion of pvrun's words for bash: sourced from a start-up file, or where bash-completion looks for it (./pvrun --install puts it there).
# shellcheck shell=bash disable=SC2207

_pvrun() {
  local word=${COMP_WORDS[COMP_CWORD]} last=${COMP_WORDS[COMP_CWORD - 1]} first=1 mode options
  [ "${COMP_WORDS[1]-}" = --unproved ] && first=2
  mode=${COMP_WORDS[first]-}
  COMPREPLY=()
  if [ "$COMP_CWORD" = "$first" ]; then
    options='run settle check layout gen replay step where page explore suite'
    [ "$first" = 2 ] || options+=' --unproved --install --help --version'
    COMPREPLY=($(compgen -W "$options" -- "$word"))
    return
  fi
  if [ "$mode" = replay ] && [ "$COMP_CWORD" = $((first + 1)) ]; then
    COMPREPLY=($(compgen -W 'write check' -- "$word"))
    return
  fi
  case $last in
    --watch) COMPREPLY=($(compgen -W 'explain census pointers' -- "$word")) && return ;;
    --zap) COMPREPLY=($(compgen -W 'on off' -- "$word")) && return ;;
    --drop) COMPREPLY=($(compgen -W 'restrict volatile attributes' -- "$word")) && return ;;
    --turns | --sides | gen) return ;;
  esac
  case $mode$word in
    run-*) COMPREPLY=($(compgen -W '--script --turns --zap --watch --raw --lower --keep --drop --input --stderr --report --sarif --leaks --quiet -I -D -U' -- "$word")) ;;
    settle-*) COMPREPLY=($(compgen -W '--script --turns --zap --sides --raw --lower --keep --drop --input --stderr --report --quiet -I -D -U' -- "$word")) ;;
    check-* | layout-*) COMPREPLY=($(compgen -W '--raw --lower --keep --drop --input --report --quiet -I -D -U' -- "$word")) ;;
    where-*) COMPREPLY=($(compgen -W '--script --turns --zap --sides --all --raw --lower --keep --drop --input -I -D -U' -- "$word")) ;;
    step-*) COMPREPLY=($(compgen -W '--script --raw --lower --keep --drop --input -I -D -U' -- "$word")) ;;
    replay-*) COMPREPLY=($(compgen -W '--script --turns --raw --lower --keep --drop --input -I -D -U' -- "$word")) ;;
    page-*) COMPREPLY=($(compgen -W '--lower --script --turns -o --listen --programs --help' -- "$word")) ;;
    explore-*) COMPREPLY=($(compgen -W '--lower --script --turns --keep --jobs --most --programs --help' -- "$word")) ;;
    suite-*) COMPREPLY=($(compgen -W '--raw --lower --drop --record --tap --junit --sarif --jobs --hosts --program --help -I -D -U' -- "$word")) ;;
    gen*) COMPREPLY=($(compgen -W '--report --quiet' -- "$word")) ;;
    *) compopt -o filenames 2>/dev/null; mapfile -t COMPREPLY < <(compgen -f -- "$word") ;;
  esac
}
complete -F _pvrun pvrun ./pvrun
