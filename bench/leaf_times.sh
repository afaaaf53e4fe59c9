#!/usr/bin/env bash
# Times the kinds of leaf on one program of 16 variables: three loops in one another with assignments `x = y + 1` and `x = x + y`
# and tests `x < y`. It runs the proved program, crates/famlint/out/famlint, and prints the times, their ratios, and, where gdb
# is there, how many widenings, narrowings and closings of both kinds there are. No gate runs this.
set -euo pipefail
bench=$(cd "$(dirname "$0")" && pwd)
program=${FAMLINT:-$bench/../crates/famlint/out/famlint}
[ -x "$program" ] || { echo "leaf_times.sh: build the program first: cd crates/famlint && rt run" >&2; exit 1; }
work=$(mktemp -d)
trap 'rm -rf "$work"' EXIT
cat > "$work/nest.c" <<'END'
int i, j, k, a, b, c, d, e, f, g, h, l, m, n, o, p;
int main(void) {
    while (i < 100) {
        a = i + 1;
        j = 0;
        while (j < 100) {
            b = a + 1;
            c = c + b;
            if (c < d) e = c + 1;
            k = 0;
            while (k < 100) {
                f = j + 1;
                g = f + 1;
                if (g < h) l = g + 1;
                m = k + 1;
                if (m < n) o = o + m;
                p = m + 1;
                k = k + 1;
            }
            j = j + 1;
        }
        i = i + 1;
    }
}
END
runs=${RUNS:-20}
declare -A took
for domain in interval stride octagon sharp; do
    start=$(date +%s%N)
    for _ in $(seq "$runs"); do
        "$program" plain --overflow=wrap --delay=2 --narrow=2 --domain="$domain" "$work/nest.c" > "$work/$domain" || [ $? = 1 ]
    done
    took[$domain]=$((($(date +%s%N) - start) / runs / 1000))
    echo "$domain: ${took[$domain]} us, $(tail -n 1 "$work/$domain")"
done
echo "stride to interval: $((100 * took[stride] / took[interval])) in a hundred"
echo "octagon to interval: $((100 * took[octagon] / took[interval])) in a hundred"
echo "sharp to interval: $((100 * took[sharp] / took[interval])) in a hundred"

# A matrix is closed in full by `standing_as`, which is called by a widening (in a step that moves a loop's head) and by a narrowing,
# and a meet closes by `close_after_one`. A pass over the entries ends with one sweep, and each closing with one sweep more: so the
# sweeps without those of the passes are the closings, but for such as found no store.
if command -v gdb > /dev/null; then
    cat > "$work/count.gdb" <<'END'
set pagination off
break octagon_leaf::leaf::OctagonLeaf::standing_as
commands
silent
backtrace 2
continue
end
break octagon_closure::pass
ignore 2 1000000000
break octagon_closure::meet_sums
ignore 3 1000000000
END
    gdb -batch -x "$work/count.gdb" \
        -ex "run plain --overflow=wrap --delay=2 --narrow=2 --domain=octagon $work/nest.c" -ex 'info breakpoints' "$program" 2>&1 |
        awk '/^#1 .*steps::moved/ { widenings++ }
            /^#1 .*steps::narrowed_by/ { narrowings++ }
            /already hit/ { hits[++n] = $4 }
            END {
                print "octagons closed in full: " hits[1] ", by " widenings + 0 " widenings and " narrowings + 0 " narrowings"
                print "closed after one meet: " hits[3] - hits[2] - hits[1] ", sweeps over a matrix: " hits[3]
            }'
fi
