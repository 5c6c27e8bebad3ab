# Completion of the words of hgdb and of its client for bash.

# The modules of a source, and the parameters of one of them.
_hgdb_modules() {
  sed -n 's/^[[:blank:]]*module[[:blank:]]\{1,\}\([A-Za-z][A-Za-z0-9_]*\).*/\1/p' "$1" 2>/dev/null
}

_hgdb_parameters() {
  sed -n "s/^[[:blank:]]*module[[:blank:]]\{1,\}$2[[:blank:]]*(\([^)]*\)).*/\1/p" "$1" 2>/dev/null | tr ',' '\n' | sed 's/[[:blank:]]*\([A-Za-z0-9_]*\).*/\1=/'
}

# The files of some endings, and folders.
_hgdb_files() {
  compgen -d -S / -- "$1"
  local ending
  for ending in "${@:2}"; do compgen -f -X "!*.$ending" -- "$1"; done
}

_hgdb() {
  local word=${COMP_WORDS[COMP_CWORD]} kinds kind top=0
  COMPREPLY=()
  if [ "$COMP_CWORD" -eq 1 ]; then
    COMPREPLY=($(compgen -W "trail compile symbols sim debug replay demo serve serveall dap --help --version" -- "$word"))
    return
  fi
  case ${COMP_WORDS[1]} in
    trail | sim | dap) kinds=(mode src stim top) ;;
    compile | symbols) kinds=(mode src top) ;;
    debug) kinds=(mode src stim req top) ;;
    serve) kinds=(mode src stim addr count top) ;;
    serveall) kinds=(mode src stim addr clients top) ;;
    replay) kinds=(sym vcd scope req) ;;
    demo) kinds=(mode n req) ;;
    *) return ;;
  esac
  kind=${kinds[COMP_CWORD - 2]:-parameter}
  [ "${kinds[${#kinds[@]} - 1]}" != top ] || top=$((${#kinds[@]} + 1))
  case $kind in
    mode) COMPREPLY=($(compgen -W "keep opt" -- "$word")) ;;
    src) COMPREPLY=($(_hgdb_files "$word" hg)) ;;
    stim) COMPREPLY=($(_hgdb_files "$word" stim)) ;;
    req) COMPREPLY=($(_hgdb_files "$word" req)) ;;
    sym) COMPREPLY=($(_hgdb_files "$word" json)) ;;
    vcd) COMPREPLY=($(_hgdb_files "$word" vcd)) ;;
    addr) COMPREPLY=($(compgen -W "127.0.0.1:4711" -- "$word")) ;;
    count) COMPREPLY=($(compgen -W "1 2 3 4 5 6 7 8 9 10 11 12 13 14 15 16" -- "$word")) ;;
    clients) COMPREPLY=($(compgen -W "1 2 3 4 5 6 7 8" -- "$word")) ;;
    top) COMPREPLY=($(compgen -W "$(_hgdb_modules "${COMP_WORDS[3]}")" -- "$word")) ;;
    parameter)
      if [ "$top" -gt 0 ]; then
        COMPREPLY=($(compgen -W "$(_hgdb_parameters "${COMP_WORDS[3]}" "${COMP_WORDS[top]}")" -- "$word"))
        compopt -o nospace 2>/dev/null
      fi
      ;;
  esac
  compopt -o filenames 2>/dev/null
}

_hgdb_client() {
  local word=${COMP_WORDS[COMP_CWORD]}
  case ${COMP_WORDS[COMP_CWORD - 1]} in
    -w) COMPREPLY=($(compgen -W "5 60" -- "$word")) ;;
    -x | --record | --hgdb) COMPREPLY=($(compgen -f -- "$word")) ;;
    --source) COMPREPLY=($(compgen -d -- "$word")) ;;
    --replay) COMPREPLY=($(_hgdb_files "$word" json)) ;;
    *.json) COMPREPLY=($(_hgdb_files "$word" vcd)) ;;
    *) COMPREPLY=($(compgen -W "-w -x --name --replay --source --hgdb --record --help 127.0.0.1:4711" -- "$word") $(_hgdb_files "$word" hg)) ;;
  esac
  compopt -o filenames 2>/dev/null
}

complete -F _hgdb hgdb
complete -F _hgdb_client hgdb-client
