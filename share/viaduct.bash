# Completions of bash for viaduct. Its commands and what stands behind them are those that `viaduct --help` prints.

# Offers the files of these endings that begin with the word, and folders.
_viaduct_files() {
  local ending
  compopt -o filenames 2> /dev/null
  mapfile -t COMPREPLY < <(for ending in "$@"; do compgen -f -X "!*.$ending" -- "$word"; done; compgen -d -- "$word")
}

_viaduct() {
  local word=${COMP_WORDS[COMP_CWORD]} help form wanted
  COMPREPLY=()
  help=$("${COMP_WORDS[0]}" --help 2> /dev/null) || return
  if [ "$COMP_CWORD" -eq 1 ]; then
    mapfile -t COMPREPLY < <(compgen -W "$(sed -n 's/^  viaduct \([a-z-][a-z-]*\).*/\1/p' <<< "$help")" -- "$word")
    return
  fi
  if [ "$COMP_CWORD" -eq 2 ] && [[ $word == -* && ${COMP_WORDS[1]} != -* ]]; then
    mapfile -t COMPREPLY < <(compgen -W --help -- "$word")
    return
  fi
  read -r -a form < <(sed -n "s/^  viaduct ${COMP_WORDS[1]//[^a-z-]/} //p" <<< "$help" | sed 's/  .*//')
  wanted=${form[COMP_CWORD - 2]:-}
  case $wanted in
    HOST | '[HOST]')
      mapfile -t COMPREPLY < <(compgen -W \
        "$(sed -n 's/^ *host  *\([A-Za-z0-9_]*\).*/\1/p' "${COMP_WORDS[2]}" 2> /dev/null)" -- "$word") ;;
    HOSTS)
      # names with commas between them: the last one is completed
      mapfile -t COMPREPLY < <(compgen -P "${word%"${word##*,}"}" -W \
        "$(sed -n 's/^ *host  *\([A-Za-z0-9_]*\).*/\1/p' "${COMP_WORDS[2]}" 2> /dev/null)" -- "${word##*,}") ;;
    '[messages]')
      mapfile -t COMPREPLY < <(compgen -W messages -- "$word") ;;
    '[each]')
      mapfile -t COMPREPLY < <(compgen -W each -- "$word") ;;
    '[early]')
      mapfile -t COMPREPLY < <(compgen -W early -- "$word") ;;
    KEY)
      mapfile -t COMPREPLY < <(compgen -W draw -- "$word") ;;
    SOURCE) _viaduct_files via ;;
    PROGRAM) _viaduct_files host ;;
    DEAL) _viaduct_files deal ;;
    CERT) _viaduct_files cert ;;
    '[json]')
      mapfile -t COMPREPLY < <(compgen -W json -- "$word") ;;
    FILE)
      case ${COMP_WORDS[1]} in
        needs | rounds) _viaduct_files via host ;;
        column) _viaduct_files csv ;;
        *)
          compopt -o filenames 2> /dev/null
          mapfile -t COMPREPLY < <(compgen -f -- "$word") ;;
      esac ;;
    INPUTS | INPUTS2 | PREFIX | OUT | SCHEDULE | SELF)
      compopt -o filenames 2> /dev/null
      mapfile -t COMPREPLY < <(compgen -f -- "$word") ;;
  esac
}
complete -F _viaduct viaduct
