# Completes the command words and file names of vixcert, in bash.
_vixcert() {
  local word=${COMP_WORDS[COMP_CWORD]} files=0
  COMPREPLY=()
  if [ "$COMP_CWORD" -eq 1 ]; then
    mapfile -t COMPREPLY < <(compgen -W "check replay settle make drill" -- "$word")
    return
  fi
  case ${COMP_WORDS[1]} in check | replay) files=2 ;; settle) files=3 ;; esac
  if [ "$COMP_CWORD" -le $((files + 1)) ]; then
    compopt -o filenames 2>/dev/null
    mapfile -t COMPREPLY < <(compgen -f -- "$word")
  fi
}
complete -F _vixcert vixcert
