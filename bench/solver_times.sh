#!/usr/bin/env bash
# Builds and runs solver_times.txt as a program over feature_model, in a temporary repository, and prints a line a case: the
# times of reading a model, of finding its least valid configuration, of preparing it, and of asking what was prepared once more.
# Turns of the search are not counted. No gate runs this.
set -euo pipefail
bench=$(cd "$(dirname "$0")" && pwd)
top=$(dirname "$bench")
work=$(mktemp -d)
trap 'rm -rf "$work"' EXIT
mkdir -p "$work/crates/solver_times/src"
for crate in fam_outer linear_terms linear_atoms cpp_conditions atom_solver c_words feature_model; do
    mkdir "$work/crates/$crate"
    (cd "$top/crates/$crate" && tar cf - --exclude=./out .) | (cd "$work/crates/$crate" && tar xf -)
done
grep -E '^(fam_outer|linear_terms|linear_atoms|cpp_conditions|atom_solver|c_words|feature_model):' "$top/crates.txt" > "$work/crates.txt"
echo 'solver_times: feature_model atom_solver cpp_conditions linear_atoms fam_outer' >> "$work/crates.txt"
cp "$bench/solver_times.txt" "$work/crates/solver_times/src/main.rt"
cd "$work/crates/solver_times"
rt run
