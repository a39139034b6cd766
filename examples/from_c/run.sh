#!/usr/bin/env bash
# From C to checked schedules: examples/from_c/run.sh [--anew]. Prints, for each kind of machine, how many are equivalent to their
# behaviour, those that are undecided, and of how many machines it is assumed that nothing wraps. With --anew the machines are made from C in a folder of their own (clang 14, opt 14 and
# Python); else those that are kept here are taken. Each certificate is checked by `verify`.
set -eu
here=$(CDPATH='' cd "$(dirname "$0")" && pwd)
work=$(mktemp -d)
trap 'rm -rf "$work"' EXIT
folder=$here
if [ "${1:-}" = --anew ]; then
  folder=$work/machines
  "$here/machines.sh" "$folder"
fi
make -s -j "${JOBS:-2}" -C "$here/../many" FOLDER="$folder" OUT="$work/results" ${FSMD:+FSMD="$FSMD"} > "$work/table" || { cat "$work/table" >&2; exit 1; }

# The rows by kind, in the order in which the machines are made, and the names of the kernels that are undecided.
sort "$work/results/rows" | awk -F '[\t/]' '
  BEGIN {
    n = split("instructions schedule simplifycfg early-cse gvn licm loop-rotate indvars instcombine reassociate " \
              "jump-threading O1 broken", kinds, " ")
  }
  { all[$2]++; count[$2, $3]++ }
  $3 == "undecided" { open[$2] = open[$2] " " $1 }
  END {
    row = "%-15s %3s %11s %15s %10s\n"
    printf row, "kind", "all", "equivalent", "counterexample", "undecided"
    for (k = 1; k <= n; k++) {
      kind = kinds[k]
      printf row, kind, all[kind] + 0, count[kind, "equivalent"] + 0, count[kind, "counterexample"] + 0,
        count[kind, "undecided"] + 0
    }
    for (k = 1; k <= n; k++) if (open[kinds[k]] != "") print "undecided " kinds[k] ":" open[kinds[k]]
  }' | fold -s -w 120 | sed 's/ *$//'
machines=("$folder"/*/*.fsmd)
assumed=$(grep -l '^# Assumed' "${machines[@]}" | wc -l)
[ "$assumed" = 0 ] || echo "of $assumed of the ${#machines[@]} machines it is assumed that operations do not wrap, as their comments say"
