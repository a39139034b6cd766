#!/usr/bin/env bash
# From a program to registers, step by step: the machine of the program, its schedules under two and under one multiplier, and the
# schedule with two registers for its six locals. Each step from a machine to a machine is checked. Prints a line a step, and one
# of the steps together, from the compiled machine on.
set -eu
here=$(CDPATH='' cd "$(dirname "$0")" && pwd)
work=$(mktemp -d)
trap 'rm -rf "$work"' EXIT
program=${FSMD:-$here/../../bin/fsmd}

# A machine that one step made of another: whether the two have the same behaviour, and what is told of its lines. The
# certificate stands beside the machine.
step() {
  local name=$1 before=$work/$2 after=$work/$3 answer lines
  answer=$("$program" check "$before.fsmd" "$after.fsmd" --cert "$after.json" | head -1)
  lines=$(sed -n 's/^# /; /p' "$after.fsmd" | tr -d '\n')
  printf '%s: %s%s\n' "$name" "$answer" "$lines"
}

"$program" compile "$here/solver.prog" > "$work/compiled.fsmd"
printf 'compiled: %s states\n' "$(grep -c '^state ' "$work/compiled.fsmd")"
"$program" schedule "$work/compiled.fsmd" "$here/two_multipliers.json" > "$work/two.fsmd"
step 'two multipliers' compiled two
"$program" schedule "$work/compiled.fsmd" "$here/one_multiplier.json" > "$work/one.fsmd"
step 'one multiplier' compiled one
"$program" bind "$work/two.fsmd" "$here/registers.json" > "$work/bound.fsmd"
step 'two registers' two bound
printf 'from the compiled machine to registers: '
"$program" chain "$work"/{compiled.fsmd,two.json,two.fsmd,bound.json,bound.fsmd}
