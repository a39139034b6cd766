# Completion of fsmd for bash: source this file, or put it where bash-completion looks for it, as bin/install does.
_fsmd() {
  local commands="check verify run replay fmt cuts generate compile schedule bind shrink chain"
  local word=${COMP_WORDS[COMP_CWORD]} last=${COMP_WORDS[COMP_CWORD - 1]} options=""
  COMPREPLY=()
  if [ "$COMP_CWORD" = 1 ]; then
    mapfile -t COMPREPLY < <(compgen -W "$commands" -- "$word")
    return
  fi
  case ${COMP_WORDS[1]} in
    check) options="--cert --steps" ;;
    run | replay | shrink) options="--steps" ;;
    generate) return ;;
  esac
  # Bash takes `--cert=F` for three words.
  if [ "$word" = "=" ]; then word=""; elif [ "$last" = "=" ]; then last=${COMP_WORDS[COMP_CWORD - 2]}; fi
  case $last in --steps) return ;; esac
  if [[ $word == -* ]]; then
    mapfile -t COMPREPLY < <(compgen -W "$options" -- "$word")
  else
    compopt -o filenames 2> /dev/null
    mapfile -t COMPREPLY < <(compgen -f -- "$word")
  fi
}
complete -F _fsmd fsmd
