#!/usr/bin/env bash
# Times the program on large machines: bench/large.sh [FOLDER]. It writes the machines into a folder, and prints elapsed seconds.
set -eu
cd "$(dirname "$0")/.."
program=crates/fsmd/out/fsmd
folder=${1:-$(mktemp -d)}
mkdir -p "$folder"
[ -x "$program" ] || { echo "build the program first: bin/build"; exit 1; }

# A chain of states, each with one assignment to one of many scalars.
chain() { # states, scalars
  awk -v states="$1" -v scalars="$2" 'BEGIN {
    print "fsmd 1; input a, b; output y;"; printf "local v0"
    for (k = 1; k < scalars; k++) printf ", v%d", k
    print "; reset s0;"
    for (q = 0; q < states; q++) {
      next_state = (q + 1) % states; x = q % scalars; z = (q * 7 + 3) % scalars
      printf "state s%d: goto s%d: v%d = v%d + a - %d * b;\n", q, next_state, x, z, q % 5
    }
  }'
}
# One transition of 120 operators, and 900 kB of comments behind it.
long_line() { awk 'BEGIN {
    printf "fsmd 1; input a; output y; local x; reset s0; state s0: goto s0: y = a"
    for (k = 0; k < 60; k++) printf " + a * a"
    print ";"
    for (k = 0; k < 100000; k++) print "# filler"
  }'; }
# Names without end.
many_names() { awk 'BEGIN { printf "fsmd 1; local n0"; for (k = 1; k < 120000; k++) printf ", n%d", k; print "; reset s;" }'; }
brackets() { awk 'BEGIN { printf "fsmd 1; output y; reset s; state s: goto s: y = "; for (k = 0; k < 1000000; k++) printf "("; }'; }

chain 4096 125 > "$folder/chain.fsmd"
chain 4000 40 > "$folder/narrow_chain.fsmd"
long_line > "$folder/long_line.fsmd"
many_names > "$folder/many_names.fsmd"
brackets > "$folder/brackets.fsmd"
for name in chain narrow_chain long_line many_names brackets; do
  file="$folder/$name.fsmd"
  printf '%-14s %8d bytes: ' "$name" "$(wc -c < "$file")"
  /usr/bin/env bash -c "TIMEFORMAT='%R s'; time $program check $file $file 2>&1 | head -c 100 | tr '\n' ' '" 2>&1 | tr '\n' ' '
  echo
done

# A loop of 10,000 steps over 128 names, which `run` stops there; 100,000 steps take ten times as long.
loop() { awk 'BEGIN {
    print "fsmd 1; input n; output y; output array m;"; printf "local v0"
    for (k = 1; k < 125; k++) printf ", v%d", k
    print "; reset s0; state s0: goto s1;"
    printf "state s1: when n >= 0 goto s1: v0 = v0 + 1, m[v0] = v0 * v0"
    for (k = 1; k < 100; k++) printf ", v%d = v%d + v%d %% 7", k, k - 1, k
    print "; goto s0;"
  }'; }
loop > "$folder/loop.fsmd"
echo '{"n": 1}' > "$folder/loop.json"
printf '%-14s %8d bytes: ' loop "$(wc -c < "$folder/loop.fsmd")"
/usr/bin/env bash -c "TIMEFORMAT='%R s'; time $program run $folder/loop.fsmd $folder/loop.json 2>&1 | head -c 100 | tr '\n' ' '" 2>&1 | tr '\n' ' '
echo
for command in fmt cuts; do
  printf '%-14s %8d bytes: ' "$command" "$(wc -c < "$folder/chain.fsmd")"
  /usr/bin/env bash -c "TIMEFORMAT='%R s'; time $program $command $folder/chain.fsmd 2>&1 | head -c 20 | tr '\n' ' '" 2>&1 | tr '\n' ' '
  echo
done
