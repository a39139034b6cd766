#!/usr/bin/env bash
# Checks one pair: one.sh LEFT RIGHT FOLDER NAME. FOLDER gets
#   reply             what `check` printed
#   certificate.json  where the pair is equivalent: the certificate, after `verify` took it
#   row               last: name, answer, nodes and seconds, with tabs between
# It ends with 0 where the pair has an answer, whichever. Else there is no row, and it ends with the status of the program.
set -eu
left=$1 right=$2 folder=$3 name=$4
program=${FSMD:-fsmd}
mkdir -p "$folder"
rm -f "$folder"/{reply,certificate.json,row}

begin=${EPOCHREALTIME/[^0-9]/} status=0
"$program" check "$left" "$right" --cert "$folder/certificate.json" > "$folder/reply" || status=$?
micros=$((${EPOCHREALTIME/[^0-9]/} - begin))
case $status in
  0)
    answer=equivalent
    "$program" verify "$left" "$right" "$folder/certificate.json" > "$folder/verdict" || { cat "$folder/verdict" >&2; exit 1; }
    rm "$folder/verdict"
    ;;
  1) answer=counterexample ;;
  2) answer=undecided ;;
  *) cat "$folder/reply" >&2; exit "$status" ;;
esac
nodes=$(sed -n 's/^equivalent: \([0-9]*\) nodes$/\1/p' "$folder/reply")
printf '%s\t%s\t%s\t%d.%06d\n' "$name" "$answer" "${nodes:--}" $((micros / 1000000)) $((micros % 1000000)) > "$folder/row"
