#!/usr/bin/env bash
# Builds and runs closure_times.txt as a program over octagon_closure, in a temporary repository, and prints
# the times of `close` and `close_after_one` on a matrix of 16 variables. No gate runs this.
set -euo pipefail
bench=$(cd "$(dirname "$0")" && pwd)
top=$(dirname "$bench")
work=$(mktemp -d)
trap 'rm -rf "$work"' EXIT
mkdir -p "$work/crates/closure_times/src" "$work/crates/closure_times/proofs/best_matrix"
for crate in fam_outer octagon_matrix octagon_closure; do
    mkdir "$work/crates/$crate"
    (cd "$top/crates/$crate" && tar cf - --exclude=./out .) | (cd "$work/crates/$crate" && tar xf -)
done
grep -E '^(fam_outer|octagon_matrix|octagon_closure):' "$top/crates.txt" > "$work/crates.txt"
echo 'closure_times: octagon_closure octagon_matrix' >> "$work/crates.txt"
cp "$bench/closure_times.txt" "$work/crates/closure_times/src/main.rt"
cp "$bench/closure_times_invariants.txt" "$work/crates/closure_times/proofs/best_matrix/Invariants.antt"
cd "$work/crates/closure_times"
rt run
