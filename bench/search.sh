#!/usr/bin/env bash
# Times `check` on large searches: bench/search.sh [FOLDER]. It writes the machines into a folder, and prints processor
# seconds and memory.
set -eu
cd "$(dirname "$0")/.."
program=${FSMD:-$PWD/crates/fsmd/out/fsmd}
folder=${1:-$(mktemp -d)}
mkdir -p "$folder"
[ -x "$program" ] || { echo "build the program first: bin/build"; exit 1; }

# A ring of so many states, each with a test: two rings of 64 and of 65 states meet in 64 times 65 pairs.
ring() { # states, more inputs, more locals, more assignments
  awk -v n="$1" -v inputs="$2" -v locals="$3" -v first="$4" 'BEGIN {
    print "fsmd 1; input a" inputs "; local x" locals "; reset s0; state s0: goto c0: x = a" first ";"
    for (k = 0; k < n; k++) printf "state c%d: when x > 0 goto c%d: x = x; goto s0;\n", k, (k + 1) % n
  }'
}
# So many locals with an equation of 18 units each.
locals=$(awk 'BEGIN { for (k = 0; k < 125; k++) printf ", t%03d", k }')
squares=$(awk 'BEGIN { for (k = 0; k < 125; k++) printf ", t%03d = (a + b) * (a + b)", k }')
# A chain of 4,096 states, each with one assignment to one of 125 scalars.
chain() { awk 'BEGIN {
    print "fsmd 1; input a, b; output y; local v0"; for (k = 1; k < 125; k++) printf ", v%d", k
    print "; reset s0;"
    for (q = 0; q < 4096; q++)
      printf "state s%d: goto s%d: v%d = v%d + a - %d * b;\n", q, (q + 1) % 4096, q % 125, (q * 7 + 3) % 125, q % 5
  }'; }

ring 64 "" "" "" > "$folder/ring64.fsmd"
ring 65 "" "" "" > "$folder/ring65.fsmd"
ring 64 ", b" "$locals" "$squares" > "$folder/wide64.fsmd"
ring 65 ", b" "$locals" "$squares" > "$folder/wide65.fsmd"
chain > "$folder/chain.fsmd"

timed() {
  printf '%-32s ' "$1"
  shift
  python3 bench/timed.py "$program" "$@"
}
timed "100 loops, 102 nodes" generate 100
timed "200 loops, 202 nodes" generate 200
timed "300 loops, 302 nodes" generate 300
timed "rings of 64 and 65 states" check "$folder/ring64.fsmd" "$folder/ring65.fsmd"
timed "the same with 4,000,000 units" check "$folder/wide64.fsmd" "$folder/wide65.fsmd"
timed "4,096 states over 125 scalars" check "$folder/chain.fsmd" "$folder/chain.fsmd"
