#!/usr/bin/env bash
# Builds and runs reading_times.txt as a program over c_parser and variant_projector, in a temporary repository, and prints
# the times of reading families of up to a megabyte. It takes along the proofs that the crates have. No gate runs this.
set -euo pipefail
bench=$(cd "$(dirname "$0")" && pwd)
top=$(dirname "$bench")
work=$(mktemp -d)
trap 'rm -rf "$work"' EXIT
mkdir -p "$work/crates/reading_times/src"
# the crates that these stand on, and themselves
crates="c_parser variant_projector feature_model fam_outer"
below=""
while [ -n "$crates" ]; do
    below="$below $crates"
    next=""
    for crate in $crates; do
        for name in $(sed -n "s/^$crate://p" "$top/crates.txt"); do
            if [ -d "$top/crates/$name" ] && ! grep -qw "$name" <<< "$below $next"; then next="$next $name"; fi
        done
    done
    crates=$next
done
while IFS=: read -r crate rest; do
    if grep -qw "$crate" <<< "$below"; then
        cp -a "$top/crates/$crate" "$work/crates/"
        echo "$crate:$rest" >> "$work/crates.txt"
    fi
done < <(grep -E '^[a-z_]+:' "$top/crates.txt")
echo 'reading_times: c_parser variant_projector feature_model fam_outer' >> "$work/crates.txt"
cp "$bench/reading_times.txt" "$work/crates/reading_times/src/main.rt"
cd "$work/crates/reading_times"
rt run
