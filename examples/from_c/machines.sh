#!/usr/bin/env bash
# From C to machines: examples/from_c/machines.sh [FOLDER]. Needs clang 14, opt 14, Python and the program.
#
# For each KERNEL/KERNEL.c it writes to FOLDER/KERNEL (without FOLDER: beside the C)
#   behaviour.fsmd     the function as clang makes it, one transition a basic block
#   instructions.fsmd  the same, one instruction a state
#   schedule.fsmd      what `fsmd schedule` makes of that under units.json
#   PASS.fsmd          the function after one pass of LLVM, where the pass changes the machine
#   O1.fsmd            after all of -O1
#   broken.fsmd        the broken twin, after all of -O1
set -eu
here=$(CDPATH='' cd "$(dirname "$0")" && pwd)
folder=${1:-$here}
program=${FSMD:-$here/../../bin/fsmd}
work=$(mktemp -d)
trap 'rm -rf "$work"' EXIT
passes="simplifycfg early-cse gvn licm loop-rotate indvars instcombine reassociate jump-threading"

# The C of a file with its locals as values, and no calls that a loop would be made into.
ir() {
  clang-14 -O0 -Xclang -disable-O0-optnone -fno-discard-value-names -fno-builtin -S -emit-llvm "$@" -o - | opt-14 -S -passes=mem2reg
}
# What LLVM makes of a file by a pass, as a machine. As in clang -O1, no loop is unrolled. A pass may drop what says that an
# operation does not wrap; the machine's comments then say that it is assumed.
machine() {
  local pass=$1 file=$2
  opt-14 -S -disable-loop-unrolling -passes="$pass" "$file" -o "$work/after.ll"
  "$here/from_ir.py" --assume-no-wrap "$work/after.ll" 2> "$work/said" || { cat "$work/said" >&2; return 1; }
}

for source in "$here"/*/*.c; do
  kernel=$(basename "$source" .c)
  out=$folder/$kernel
  mkdir -p "$out"
  ir "$source" > "$work/before.ll"
  "$here/from_ir.py" "$work/before.ll" > "$out/behaviour.fsmd"
  "$here/from_ir.py" --instructions "$work/before.ll" > "$out/instructions.fsmd"
  "$program" schedule "$out/instructions.fsmd" "$here/units.json" > "$out/schedule.fsmd"
  for pass in $passes; do
    case $pass in
      licm) machine 'loop-mssa(licm)' "$work/before.ll" ;;
      loop-rotate | indvars) machine "loop($pass)" "$work/before.ll" ;;
      *) machine "$pass" "$work/before.ll" ;;
    esac > "$out/$pass.fsmd"
    ! cmp -s "$out/$pass.fsmd" "$out/behaviour.fsmd" || rm "$out/$pass.fsmd"
  done
  machine 'default<O1>' "$work/before.ll" > "$out/O1.fsmd"
  ir -DBROKEN "$source" > "$work/broken.ll"
  machine 'default<O1>' "$work/broken.ll" > "$out/broken.fsmd"
done
