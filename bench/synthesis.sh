#!/usr/bin/env bash
# Times `compile`, `schedule` and `bind` on large inputs: bench/synthesis.sh [FOLDER]. It writes them into a folder, and
# prints processor seconds and memory.
set -eu
cd "$(dirname "$0")/.."
program=${FSMD:-$PWD/crates/fsmd/out/fsmd}
folder=${1:-$(mktemp -d)}
mkdir -p "$folder"
[ -x "$program" ] || { echo "build the program first: bin/build"; exit 1; }

# One basic block of 4,000 assignments over 124 scalars.
line() { awk 'BEGIN {
    print "fsmd 1; input a, b; output y; local v0"; for (k = 1; k < 124; k++) printf ", v%d", k
    print "; reset s0;"
    for (q = 0; q < 4000; q++)
      printf "state s%d: goto s%d: v%d = v%d + a * b;\n", q, (q + 1) % 4000, q % 124, (q * 7 + 3) % 124
  }'; }
# A program of so many statements in loops within loops, 60 deep.
loops() { awk 'BEGIN {
    print "prog; input a; output y; local i; {"
    for (k = 0; k < 50; k++) {
      for (d = 0; d < 60; d++) printf "while i < a {\n"
      for (q = 0; q < 10; q++) print "i = i + 1;"
      for (d = 0; d < 60; d++) printf "}\n"
    }
    print "y = i; }"
  }'; }
# Each of 800 states has 33 branches, of which 32 assign one local of each of 62 pairs; a pair shares a register. No local is
# read, so none is lost, and each branch is looked at.
pairs() { awk 'BEGIN {
    printf "fsmd 1; input a; output y; local v0"; for (k = 1; k < 124; k++) printf ", v%d", k
    print "; reset s0;"
    for (q = 0; q < 800; q++) {
      printf "state s%d: when a > 0", q
      for (k = 1; k < 32; k++) printf " || a > %d", k
      printf " goto s%d: ", (q + 1) % 800
      for (k = 0; k < 124; k += 2) printf "%sv%d = a", k ? ", " : "", k
      printf "; goto s%d;\n", (q + 1) % 800
    }
  }'; }
registers() { awk 'BEGIN { for (k = 0; k < 124; k++) printf "%s\"v%d\": \"r%d\"", k ? ", " : "{", k, int(k / 2); print "}" }'; }

line > "$folder/line.fsmd"
echo '{"add": 4, "mul": 2}' > "$folder/units.json"
loops > "$folder/loops.prog"
pairs > "$folder/pairs.fsmd"
registers > "$folder/registers.json"

timed() {
  printf '%-36s ' "$1"
  shift
  python3 bench/timed.py "$program" "$@"
}
timed "compile 3,500 statements" compile "$folder/loops.prog"
timed "schedule a line of 4,000 states" schedule "$folder/line.fsmd" "$folder/units.json"
timed "bind 124 locals to 62 registers" bind "$folder/pairs.fsmd" "$folder/registers.json"
