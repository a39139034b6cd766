#!/usr/bin/env bash
# Times `shrink`: bench/shrink.sh [FOLDER]. It writes its machines and inputs into a folder, and prints the last line of the
# reply, processor seconds and memory.
set -eu
cd "$(dirname "$0")/.."
program=${FSMD:-$PWD/crates/fsmd/out/fsmd}
folder=${1:-$(mktemp -d)}
mkdir -p "$folder"
[ -x "$program" ] || { echo "build the program first: bin/build"; exit 1; }

# Counts which of the first 16 entries are not 0, in runs of 994 steps, and tells by this number whether they are so many.
counts() { # TEST NUMBER
  cat << END
fsmd 1;
input array x;
output y;
local k, n, w;
reset s0;
state s0: goto s1: k = 0, n = 0, w = 0;
state s1: when k < 16 goto s2: w = 0; when n $1 goto s0: y = $2; goto s0: y = 0;
state s2: when w < 60 goto s2: w = w + 1; when x[k] != 0 goto s1: n = n + 1, k = k + 1; goto s1: k = k + 1;
END
}
# The first 16 entries, each of 100 bits.
entries() { awk 'BEGIN { for (k = 0; k < 16; k++) printf "%s\"%d\": \"%s1267650600228229401496703205375\"", k ? ", " : "{\"x\": {", k, k % 2 ? "-" : ""; print "}}" }'; }

entries > "$folder/entries.json"
timed() { # WHAT TEST
  printf '%-52s ' "$1"
  counts "$2" 1 > "$folder/left.fsmd"
  counts "$2" 2 > "$folder/right.fsmd"
  python3 bench/timed.py "$program" shrink "$folder"/{left,right}.fsmd "$folder/entries.json"
}
timed "16 entries of 100 bits, 994 steps: one has to stay" "> 0"
timed "the same: eight have to stay" "> 7"
timed "the same: all have to stay" "== 16"
