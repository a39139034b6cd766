#!/usr/bin/env bash
# One task of an array job over a list that pairs.sh printed: array_job.sh LIST FOLDER. Task K of N checks the pairs on
# lines K, K + N, K + 2N .., and leaves out those whose row is newer than both machines and the program. It ends with the last
# status that was not 0.
set -u
list=$1 folder=$2
task=${SLURM_ARRAY_TASK_ID:-${PBS_ARRAY_INDEX:-${SGE_TASK_ID:?the number of this task, from 1}}}
tasks=${TASKS:-${SLURM_ARRAY_TASK_COUNT:?the number of tasks}}
here=${MANY:-$(CDPATH='' cd "$(dirname "$0")" && pwd)}
program=$(command -v "${FSMD:-fsmd}")
worst=0
while IFS=$'\t' read -r left right name; do
  row=$folder/$name/row
  [ "$row" -nt "$left" ] && [ "$row" -nt "$right" ] && [ "$row" -nt "$program" ] && continue
  "$here/one.sh" "$left" "$right" "$folder/$name" "$name" < /dev/null || worst=$?
done < <(awk -v task="$task" -v tasks="$tasks" 'NR % tasks == task % tasks' "$list")
exit $worst
