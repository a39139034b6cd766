#!/usr/bin/env bash
# Times `check` and `verify` of machines with 64 paths at a pair of points: bench/paths.sh [FOLDER]. It writes the machines into a
# folder, and prints the last line of the reply, processor seconds and memory.
set -eu
cd "$(dirname "$0")/.."
program=${FSMD:-$PWD/crates/fsmd/out/fsmd}
folder=${1:-$(mktemp -d)}
mkdir -p "$folder"
[ -x "$program" ] || { echo "build the program first: bin/build"; exit 1; }

# A loop whose state has 63 guarded lines, each `TEST == k`, and behind them a line of so many states with these assignments.
many() { # test, before, output, assignments, more
  awk -v test="$1" -v before="$2" -v last="$3" -v work="$4" -v more="$5" 'BEGIN {
    print "fsmd 1; input x, z; output y; output array m; local i, p, w, v; reset s; state s: goto t: i = z" before ";"
    print "state t:"
    for (k = 0; k < 63; k++) printf "  when %s == %d goto u0;\n", test, k
    printf "  goto s: y = %s;\n", last
    count = split(work, parts, ";")
    for (j = 1; j <= count; j++) printf "state u%d: goto u%d: %s;\n", j - 1, j, parts[j]
    printf "state u%d: goto t: i = i + 1%s;\n", count, more
  }'
}
products="w = (x + z + i) * (x + z + w)"
for _ in 1 2 3 4 5 6 7 8 9; do products="$products;v = w * w * w"; done
writes="m[i] = m[i + 1] + w;w = m[w] + m[i + z];m[w] = m[i]"
many "i" "" "i" "w = x" "" > "$folder/plain.fsmd"
many "i" "" "i" "$writes;$writes" "" > "$folder/writes.fsmd"
many "i" "" "i" "$products" "" > "$folder/products.fsmd"
many "p" ", p = z" "p" "$products" ", p = p + 1" > "$folder/counted.fsmd"
many "i" "" "i * x" "$products" "" > "$folder/product.fsmd"
many "i" ", p = z * x" "p" "$products" ", p = p + x" > "$folder/summed.fsmd"

timed() {
  printf '%-40s ' "$1"
  shift
  RUNS=1 python3 bench/timed.py "$program" "$@"
}
for name in plain writes products; do
  timed "check, $name" check "$folder/$name.fsmd" "$folder/$name.fsmd" --cert "$folder/$name.json"
  timed "verify, $name" verify "$folder/$name.fsmd" "$folder/$name.fsmd" "$folder/$name.json"
done
timed "check, another counter" check "$folder/products.fsmd" "$folder/counted.fsmd"
timed "check, a sum in place of a product" check "$folder/product.fsmd" "$folder/summed.fsmd"
