#!/usr/bin/env bash
# Times each command on texts near the limits and far past them: bench/hostile.sh [FOLDER]. It writes the texts into a folder
# (about 300 MB), and prints the last line of the reply, processor seconds and memory of each, and at the end the forty slowest.
# A run that wants more than 4 GB is refused memory, and one of more than 100 seconds is ended; the last line is then empty.
set -eu
cd "$(dirname "$0")/.."
program=${FSMD:-$PWD/crates/fsmd/out/fsmd}
folder=${1:-$(mktemp -d)}
mkdir -p "$folder"
[ -x "$program" ] || { echo "build the program first: bin/build"; exit 1; }

python3 bench/hostile_texts.py "$folder"
: > "$folder/times"
timed() {
  printf '%-56s ' "$(printf '%s ' "${@##*/}")"
  (ulimit -v 4194304 -t 100; python3 bench/timed.py "$program" "$@")
}
refused() { # MACHINE
  [[ $("$program" fmt "$1" 2>&1 | head -c 10) == "bad input:" ]]
}
machine() { # FILE
  timed fmt "$1"
  ! refused "$1" || return 0
  timed check "$1" "$1"
  timed cuts "$1"
  timed run "$1" "$folder/none.inputs"
  timed bind "$1" "$folder/none.binding"
  timed schedule "$1" "$folder/many.units"
}
# The machine that a file is for: that of the first part of its name, or one that does nothing.
machine_of() { # FILE
  local name=${1##*/}
  if [[ $name == *.*.* ]]; then echo "$folder/${name%%.*}.fsmd"; else echo "$folder/idle.fsmd"; fi
}
for file in "$folder"/*.*; do
  case $file in
    *.fsmd) machine "$file" ;;
    *.prog) timed compile "$file" ;;
    *.inputs) timed run "$(machine_of "$file")" "$file" ;;
    *.units) timed schedule "$(machine_of "$file")" "$file" ;;
    *.binding) timed bind "$(machine_of "$file")" "$file" ;;
    *.cert) timed verify "$folder/idle.fsmd" "$folder/idle.fsmd" "$file" ;;
  esac
done | tee "$folder/times"
echo
echo "The slowest:"
awk '{ print $(NF - 3), $0 }' "$folder/times" | sort -rn | sed -n '1,40s/^[^ ]* //p'
