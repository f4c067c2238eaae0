# Completion of hpsim and hpview in bash: source this file, as in ~/.bashrc.
_hpsim() {
  local word="${COMP_WORDS[COMP_CWORD]}" words=""
  local kinds="rp06 rm03 rm05" verb="${COMP_WORDS[1]} ${COMP_WORDS[2]}"
  case "$COMP_CWORD" in
    1) words="play cached bad144 format raw dump exercise help --version" ;;
    2)
      case "${COMP_WORDS[1]}" in
        bad144) words="list add fresh mark" ;;
        raw) words="read write" ;;
        help) words="play cached bad144 format raw dump exercise" ;;
      esac
      ;;
    3) case "${COMP_WORDS[1]}" in format | dump) words="$kinds" ;; esac ;;
    4) case "${COMP_WORDS[1]}" in bad144 | raw) words="$kinds" ;; esac ;;
    5) [ "${COMP_WORDS[1]}" != raw ] || words="a b c d e f g h" ;;
    6) [ "$verb" != "bad144 add" ] || words="copy mark" ;;
    7) [ "$verb" != "bad144 add" ] || words="mark" ;;
  esac
  COMPREPLY=($(compgen -W "$words" -- "$word"))
}
_hpview() {
  COMPREPLY=()
  [ "$COMP_CWORD" -ne 1 ] || COMPREPLY=($(compgen -W "svg text tsv summary json help --version" -- "${COMP_WORDS[1]}"))
}
complete -o default -F _hpsim hpsim
complete -o default -F _hpview hpview
