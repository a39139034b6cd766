#!/usr/bin/env bash
# Times the operations on large terms: bench/terms.sh. The program beside it is proved, built and run in a copy of the crates; what the gate
# proved on this machine is taken from there.
set -eu
root=$(cd "$(dirname "$0")/.." && pwd)
# shellcheck source=bin/common.sh
. "$root/bin/common.sh"
folder=$(mktemp -d)
trap 'rm -rf "$folder"' EXIT
takes=(fs_model nf_terms nf_sums nf_arrays nf_substitution nf_rel nf_refutation)
read_crates
copy_crates "$folder" "${takes[@]}"
mkdir -p "$folder/crates/terms_bench/src"
cp "$root/bench/terms/program.txt" "$folder/crates/terms_bench/src/main.rt"
echo "terms_bench: ${takes[*]} anyhow" >> "$folder/crates.txt"
cd "$folder"
# (the gate wants a program's output to be known, and times never are)
rt ci terms_bench > log 2>&1 || true
cat crates/terms_bench/out/stdout || tail -20 log
