#!/usr/bin/env bash
# Prints how many of the machines of examples/from_c are decided, and how long `check` takes: bench/kernels.sh. A line a kind, with
# the processor milliseconds of the pair in the middle and of the longest; each pair is checked once.
set -u
cd "$(dirname "$0")/.." || exit 1
program=${FSMD:-$PWD/crates/fsmd/out/fsmd}
[ -x "$program" ] || { echo "build the program first: (cd crates/fsmd && rt run)"; exit 1; }
TIMEFORMAT='%U %S'

# A line a pair: its kind, the status of `check`, its processor seconds for the program and for the kernel.
rows() {
  local left right name
  while IFS=$'\t' read -r left right name; do
    { time "$program" check "$left" "$right" > /dev/null; echo "${name#*/} $?" >&2; } 2>&1 | paste -s -d ' '
  done < <(examples/many/pairs.sh examples/from_c)
}
rows | awk '{ print $3, $4, 1000 * ($1 + $2) }' | sort -k 3,3n | awk '
  function line(kind) {
    printf "%-16s %8d %12d %10d %11d\n", kind, decided[kind], all[kind] - decided[kind],
      times[kind, int((all[kind] + 1) / 2)], times[kind, all[kind]]
  }
  function count(kind) {
    times[kind, ++all[kind]] = $3
    if ($2 == 0 || $2 == 1) decided[kind]++
  }
  { count($1 ~ /^(instructions|schedule|O1|broken)$/ ? $1 : "one pass"); count("all") }
  END {
    printf "%-16s %8s %12s %10s %11s\n", "kind", "decided", "not decided", "middle ms", "longest ms"
    n = split("instructions,schedule,one pass,O1,broken,all", kinds, ",")
    for (k = 1; k <= n; k++) line(kinds[k])
  }'
