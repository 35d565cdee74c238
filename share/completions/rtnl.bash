# Completion of the command rtnl in bash.

# _rtnl_options COMMAND: its options.
_rtnl_options() {
  case $1 in
    show) echo --order --format --bytes --color --explain --help ;;
    follow)
      echo --order --format --bytes --color --kind --seq --port --depth --strict --explain --help
      ;;
    check) echo --order --format --explain --help ;;
    table)
      echo --kind --seq --port --family --depth --entries --order --format --explain --help
      ;;
    mirror)
      echo --kind --family --changes --depth --entries --waiting --order --format --strict --explain --help
      ;;
    request) echo --kind --seq --family --order --help ;;
  esac
}

_rtnl() {
  local commands='show follow check table mirror request'
  local word=${COMP_WORDS[COMP_CWORD]} before=${COMP_WORDS[COMP_CWORD - 1]} command=${COMP_WORDS[1]} words=
  # Bash splits an option and its value at the sign between them.
  [ "$before" = '=' ] && before=${COMP_WORDS[COMP_CWORD - 2]}
  [ "$word" = '=' ] && word=
  COMPREPLY=()
  if [ "$COMP_CWORD" = 1 ]; then
    words="$commands help"
    [[ $word == -* ]] && words='--help --version'
  elif [ "$command" = help ]; then
    words=$commands
  else
    case $before in
      --order) words='little big' ;;
      --format) words='text json' ;;
      --color) words='auto always never' ;;
      --kind) words='link addr route neigh rule' ;;
      --seq | --port | --family | --depth | --entries | --waiting) ;;
      *)
        if [ "$command" = request ] || [[ $word == -* ]]; then
          words=$(_rtnl_options "$command")
        else
          # The file's name, as bash completes it.
          compopt -o default 2>/dev/null
        fi
        ;;
    esac
  fi
  mapfile -t COMPREPLY < <(compgen -W "$words" -- "$word")
}

complete -F _rtnl rtnl
