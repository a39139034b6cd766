#!/usr/bin/env bash
# Times `check` where the search meets an obstacle and all 832 stated candidates run for nearly 100,000 steps: bench/candidates.sh [FOLDER].
set -eu
cd "$(dirname "$0")/.."
program=${FSMD:-$PWD/crates/fsmd/out/fsmd}
folder=${1:-$(mktemp -d)}
mkdir -p "$folder"
[ -x "$program" ] || { echo "build the program first: bin/build"; exit 1; }

# A machine of 128 names that goes round 99,996 times, with so many assignments each time. The numbers in its guards fill the pool.
rounds() { # assignments, the last right side
  awk -v count="$1" -v last="$2" 'BEGIN {
    printf "fsmd 1; input a, b; output y; local i"
    for (k = 0; k < 124; k++) printf ", v%d", k
    printf "; reset s0;\nstate s0: when a > 1000 && a > 2000 && a > 3000 && a > 4000 && a > 5000 && a > 6000 && b > 7000 goto s0; goto s1;\n"
    printf "state s1: when i < 99996 goto s1: i = i + 1"
    for (k = 0; k < count; k++) printf ", v%d = v%d + 1", k, (k + 1) % 124
    printf "; goto s0: y = %s;\n", last
  }'
}
for count in 0 10; do
  rounds "$count" "a / 1" > "$folder/left.fsmd"
  rounds "$count" "a" > "$folder/right.fsmd"
  printf '%-32s ' "$count more assignments a step"
  RUNS=1 python3 bench/timed.py "$program" check "$folder/left.fsmd" "$folder/right.fsmd" --steps 100000
done
