# Completion of fsmd_show for bash: source this file, or put it where bash-completion looks for it, as bin/install does.
_fsmd_show() {
  local views="machine pair why certificate inputs trace"
  local word=${COMP_WORDS[COMP_CWORD]}
  COMPREPLY=()
  if [ "$COMP_CWORD" = 1 ]; then
    mapfile -t COMPREPLY < <(compgen -W "$views" -- "$word")
  else
    compopt -o filenames 2> /dev/null
    mapfile -t COMPREPLY < <(compgen -f -- "$word")
  fi
}
complete -F _fsmd_show fsmd_show
