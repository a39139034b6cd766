#!/usr/bin/env bash
# Prints rows as a table: table.sh text|csv|json < ROWS. A row is name, answer, nodes and seconds, with tabs between.
set -eu
sort | case $1 in
  text)
    awk -F '\t' '
      { rows[NR] = $0; count[$2]++; if (length($1) > wide) wide = length($1) }
      END {
        wide = wide < 4 ? 4 : wide
        printf "%-*s  %-14s  %5s  %8s\n", wide, "pair", "answer", "nodes", "seconds"
        for (k = 1; k <= NR; k++) {
          split(rows[k], cell, "\t")
          printf "%-*s  %-14s  %5s  %8.3f\n", wide, cell[1], cell[2], cell[3], cell[4]
        }
        printf "%d equivalent, %d counterexample, %d undecided\n", count["equivalent"], count["counterexample"], count["undecided"]
      }'
    ;;
  csv) awk -F '\t' 'BEGIN { print "pair,answer,nodes,seconds" } { print $1 "," $2 "," ($3 == "-" ? "" : $3) "," $4 }' ;;
  json)
    awk -F '\t' '
      BEGIN { printf "[" }
      {
        printf "%s\n {\"pair\":\"%s\",\"answer\":\"%s\",", NR == 1 ? "" : ",", $1, $2
        printf "\"nodes\":%s,\"seconds\":%s}", $3 == "-" ? "null" : $3, $4
      }
      END { print "\n]" }'
    ;;
esac
