# shellcheck shell=bash disable=SC2154
# What the scripts of this folder share. Each of them sets `root`, the folder of the repository, and reads this file.
# It needs bash and coreutils alone.

# The environment may carry options of the shell (SHELLOPTS, BASHOPTS) and patterns that no name matches: what they change of
# names, patterns and failures is put back.
set +fk +o posix
shopt -u failglob nocaseglob nocasematch extdebug inherit_errexit
unset GLOBIGNORE CDPATH

# Reads crates.txt: `libraries` has the crates' names, each with those that it takes.
declare -A libraries=()
read_crates() {
  local line
  while IFS= read -r line || [ -n "$line" ]; do
    line=${line%%#*}
    [[ $line == *:* ]] || continue
    libraries[${line%%[ :]*}]=${line#*:}
  done < "$root/crates.txt"
}

# Prints the names of the crates given and of those below them, sorted.
crates_below() {
  local -A found=()
  local name last todo=("$@")
  while [ "${#todo[@]}" -gt 0 ]; do
    last=$((${#todo[@]} - 1))
    name=${todo[last]}
    unset "todo[last]"
    if [ -z "${libraries[$name]+known}" ] || [ -n "${found[$name]+known}" ]; then continue; fi
    found[$name]=yes
    # shellcheck disable=SC2206 # names of crates are words
    todo+=(${libraries[$name]})
  done
  printf '%s\n' "${!found[@]}" | LC_ALL=C sort
}

# Prints the checksum of what a program is made of, `fsmd` where none is named: of its crate and of each below it its line of
# crates.txt, and each .rt and .antt file of its src/, specs/ and proofs/ with its path. It is the same in each folder and under
# each locale. Where no sources are there, it says so, with status 1.
sources_sum() ( # [NAME]
  local crates=() lines=() files=() crate sum LC_ALL=C
  cd "$root" || exit
  shopt -s globstar nullglob dotglob
  [ -r crates.txt ] || { echo "${1:-fsmd}: crates.txt is missing: a whole clone is needed" >&2; exit 1; }
  read_crates
  mapfile -t crates < <(crates_below "${1:-fsmd}")
  for crate in "${crates[@]}"; do
    lines+=("$crate:${libraries[$crate]}")
    files+=("crates/$crate"/{src,specs,proofs}/**/*.{rt,antt})
  done
  [ "${#files[@]}" -gt 0 ] || { echo "${1:-fsmd}: crates/ is missing: a whole clone is needed" >&2; exit 1; }
  sum=$({ printf '%s\n' "${lines[@]}"; sha256sum -- "${files[@]}"; } | sha256sum)
  printf '%s\n' "${sum%% *}"
)

file_sum() {
  local sum
  sum=$(sha256sum < "$1") && printf '%s\n' "${sum%% *}"
}

# Beside a program stands its record: its checksum, that of the sources that it was made of, and the line of the kit that made it.
# In release/, where two programs stand, that of `fsmd_show` is fsmd_show-record.
record_of() { # PROGRAM
  local folder=${1%/*} name=${1##*/}
  case ${folder##*/}/$name in
    release/fsmd_show-*) printf '%s\n' "$folder/fsmd_show-record" ;;
    *) printf '%s\n' "$folder/record" ;;
  esac
}
write_record() { # PROGRAM SOURCES_SUM
  printf 'program %s\nsources %s\nkit %s\n' "$(file_sum "$1")" "$2" "$(rt version)" > "$(record_of "$1")"
}

# Prints why a program is not that of the sources with this checksum, and nothing where it is.
differs() { # PROGRAM SOURCES_SUM
  local program="" sources="" word rest record
  record=$(record_of "$1")
  [ -f "$1" ] || { echo "there is none"; return; }
  [ -f "$record" ] || { echo "no record beside it tells which sources it was made of"; return; }
  while read -r word rest; do
    case $word in program) program=$rest ;; sources) sources=$rest ;; esac
  done < "$record"
  [ "$program" = "$(file_sum "$1")" ] || { echo "it is another program than its record tells of"; return; }
  [ "$sources" = "$2" ] || echo "the sources changed since it was made"
}

# Prints what this machine lacks of what the program needs, or nothing where all of it seems to be there.
lacks() {
  local line version
  [ "$(uname -sm)" = "Linux x86_64" ] || { echo "this is $(uname -sm)"; return; }
  [ -e /lib64/ld-linux-x86-64.so.2 ] || { echo "this Linux has no glibc: /lib64/ld-linux-x86-64.so.2 is missing"; return; }
  version=$(getconf GNU_LIBC_VERSION 2>/dev/null)
  version=${version##*.}
  if [ "${version:-34}" -lt 34 ]; then echo "this is $(getconf GNU_LIBC_VERSION)"; return; fi
  [ -r /proc/cpuinfo ] || return
  while read -r line; do
    [[ $line != flags* ]] || break
  done < /proc/cpuinfo
  [[ " $line " == *\ sse4_2\ * && " $line " == *\ popcnt\ * ]] || echo "this processor is older than x86-64-v2"
}

# Prints why the program does not run on this machine, and nothing where it does: without words it ends with status 64.
stops() { # PROGRAM
  local said status lacking
  said=$({ "$1" < /dev/null > /dev/null; } 2>&1)
  status=$?
  case $status in 64 | 71 | 74) return ;; esac
  lacking=$(lacks)
  said=${said#*common.sh: line *: }
  echo "it does not run on this machine: ${lacking:-${said:-it ends with status $status}}"
}

# Prints the program to run, `fsmd` where none is named: the release, or else the one that was built here, where it was made of the
# sources as they stand and runs here. Otherwise it says why there is none, and what to do.
usable_program() { # [NAME]
  local name=${1:-fsmd} sum program why said=""
  sum=$(sources_sum "$name") || return 70
  for program in "$root/release/$name-x86_64-linux" "$root/crates/$name/out/$name"; do
    why=$(differs "$program" "$sum")
    why=${why:-$(stops "$program")}
    [ -n "$why" ] || { printf '%s\n' "$program"; return; }
    said+="$name: ${program#"$root/"}: $why"$'\n'
  done
  printf '%s' "$said" >&2
  if [[ $said == *"does not run"* ]]; then
    echo "$name: the program needs Linux on x86-64 (x86-64-v2) and glibc 2.34 or newer, as Debian 12, Fedora 35 and Ubuntu 22.04 have." >&2
    echo "$name: bin/build proves the sources and builds it anew, with the Rattle kit, which builds for such machines alone." >&2
  else
    echo "$name: bin/build proves the sources as they stand and builds the program; it needs the Rattle kit, with rt on PATH." >&2
  fi
  return 70
}

# Copies the crates given and those below them to a new folder, as a repository of their own, without what was made of them and
# without the edits that must be refused.
copy_crates() { # FOLDER CRATE..
  local folder=$1 crate part
  shift
  mkdir -p "$folder/crates" "$folder/.git"
  cp "$root/HANDLES" "$folder/"
  while read -r crate; do
    mkdir "$folder/crates/$crate"
    for part in "$root/crates/$crate"/*; do
      case ${part##*/} in out | must-fail) ;; *) cp -R "$part" "$folder/crates/$crate/" ;; esac
    done
    printf '%s:%s\n' "$crate" "${libraries[$crate]}"
  done < <(crates_below "$@") > "$folder/crates.txt"
}

# Runs the kit's gate in a folder, in the background and in a process group of its own, whose number is `gate`.
gate=""
start_gate() { # FOLDER LOG
  : > "$2"
  set -m
  (cd "$1" && exec rt ci) > "$2" 2>&1 < /dev/null &
  gate=$!
  set +m
}
stop_gate() {
  [ -n "$gate" ] || return 0
  kill -TERM -- "-$gate" 2> /dev/null
  wait "$gate" 2> /dev/null
}
