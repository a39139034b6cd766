#!/usr/bin/env bash
# Prints how many sequences of machines of examples/from_c are decided, whose machines are decided by themselves, and how long
# `check` takes: bench/sequences.sh [FOLDER]. A line for each length, with the processor milliseconds of the pair in the middle and of
# the longest; each pair is checked once.
set -eu
cd "$(dirname "$0")/.."
program=${FSMD:-$PWD/crates/fsmd/out/fsmd}
folder=${1:-$(mktemp -d)}
[ -x "$program" ] || { echo "build the program first: bin/build"; exit 1; }
TIMEFORMAT='%U %S'

# A line a pair of sequences of a length: the status of `check`, its processor seconds for the program and for the kernel.
rows() { # LENGTH
  local left status
  for left in "$folder/$1".*.left.fsmd; do
    { time { status=0; "$program" check "$left" "${left/.left./.right.}" > /dev/null || status=$?; }; echo "$status" >&2; } 2>&1 |
      paste -s -d ' '
  done
}
printf '%-8s %8s %8s %12s %10s %11s\n' length states decided 'not decided' 'middle ms' 'longest ms'
for length in 1 2 4 8 12; do
  FSMD=$program python3 bench/sequences.py "$folder" 16 "$length"
  states=$(cat "$folder/$length".*.left.fsmd | grep -c '^ *state ')
  rows "$length" | awk '{ print $3, 1000 * ($1 + $2) }' | sort -k 2,2n | awk -v length_="$length" -v states="$states" '
    { times[NR] = $2; if ($1 == 0) decided++ }
    END { printf "%-8d %8d %8d %12d %10d %11d\n", length_, states / NR, decided, NR - decided, times[int((NR + 1) / 2)], times[NR] }'
done
