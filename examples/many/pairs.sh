#!/usr/bin/env bash
# Prints the pairs under a folder: pairs.sh FOLDER. A line each: the left machine, the right one and a name, with tabs between.
# A pair is a behaviour.fsmd with another machine of its folder; its name is the path of that machine below FOLDER.
set -eu
top=${1%/}
find "$top" -name behaviour.fsmd | sort | while read -r behaviour; do
  for other in "${behaviour%/*}"/*.fsmd; do
    name=${other#"$top/"}
    [ "$other" = "$behaviour" ] || printf '%s\t%s\t%s\n' "$behaviour" "$other" "${name%.fsmd}"
  done
done
