# Completion of mdvsp for bash. tools/usage.py writes this file from packaging/commands.txt.

_mdvsp() {
  local words=
  COMPREPLY=()
  [ "$COMP_CWORD" -eq 1 ] && words='solve resume trace replay check blocks network peak peakcheck make trial --quiet --log --help --version'
  [ "$COMP_CWORD" -gt 1 ] && case ${COMP_WORDS[1]} in
    solve) words='--workers --nodes --seconds --gap --help' ;;
    resume) words='--workers --nodes --seconds --gap --help' ;;
    trace) words='--workers --nodes --seconds --gap --help' ;;
    replay) words='--help' ;;
    check) words='--help' ;;
    blocks) words='--help' ;;
    network) words='--help' ;;
    peak) words='--help' ;;
    peakcheck) words='--help' ;;
    make) words='--help' ;;
    trial) words='--help' ;;
  esac
  # Where no option is begun, a file may stand.
  [[ "$COMP_CWORD" -gt 1 && ${COMP_WORDS[COMP_CWORD]} != -* ]] && return
  # Behind an option stands a number, which is not completed, and no option stands twice.
  case ${COMP_WORDS[COMP_CWORD - 1]} in --*) return ;; esac
  local word
  for word in $words; do
    [[ " ${COMP_WORDS[*]:1:COMP_CWORD-1} " == *" $word "* ]] || COMPREPLY+=("$word")
  done
  mapfile -t COMPREPLY < <(compgen -W "${COMPREPLY[*]}" -- "${COMP_WORDS[COMP_CWORD]}")
}
complete -o default -F _mdvsp mdvsp
