#!/usr/bin/env bash
# Where standard error is a terminal, tells how far the work of the Makefile is; else it does nothing.
#   progress.sh waiting FOLDER OUT PROGRAM  prints how many pairs of a folder have no row in OUT that is newer than its machines,
#                                           one.sh and the program
#   progress.sh tell OUT WAITING BEGIN      tells how many of those that waited at this second are done, and about how long is left
set -eu
[ -t 2 ] || exit 0
case $1 in
  waiting)
    count=0
    while IFS=$'\t' read -r left right name; do
      row=$3/$name/row
      for source in "$left" "$right" one.sh "$4"; do
        if ! [ "$row" -nt "$source" ]; then count=$((count + 1)); break; fi
      done
    done < <(./pairs.sh "$2")
    echo "$count"
    ;;
  tell)
    done=$(find "$2" -name row -newermt "@$4" | wc -l)
    if [ "$done" = 0 ] || [ "$done" -ge "$3" ]; then printf '\r\033[K' >&2; exit; fi
    seconds=$((EPOCHSECONDS - $4)) left=""
    [ "$seconds" = 0 ] || left="; about $((seconds * ($3 - done) / done + 1)) s left"
    printf '\r%d of %d pairs are done%s\033[K' "$done" "$3" "$left" >&2
    ;;
esac
