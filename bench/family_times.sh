#!/usr/bin/env bash
# Times the analysis of families by the proved program, crates/famlint/out/famlint, and prints a line a case: families of 500, 1000 and
# 2000 blocks over eight switches and a number; thirty switches against one; the queue of the examples against one of its variants; and
# twelve loops in one another. Each time is the best of some runs, without that of an empty file. No gate runs this.
set -euo pipefail
bench=$(cd "$(dirname "$0")" && pwd)
program=${FAMLINT:-$bench/../crates/famlint/out/famlint}
[ -x "$program" ] || { echo "family_times.sh: build the program first: cd crates/famlint && rt run" >&2; exit 1; }
work=$(mktemp -d)
trap 'rm -rf "$work"' EXIT
runs=${RUNS:-5}

# the best time of a command in microseconds
best() {
    local least= start took
    for _ in $(seq "$runs"); do
        start=$(date +%s%N)
        "$program" "$@" > "$work/out" || [ $? = 1 ]
        took=$((($(date +%s%N) - start) / 1000))
        if [ -z "$least" ] || [ "$took" -lt "$least" ]; then least=$took; fi
    done
    echo "$least"
}

# the same without the time of an empty file, at least 1
time_of() {
    local took
    took=$(($(best "$@") - empty))
    if [ "$took" -lt 1 ]; then took=1; fi
    echo "$took"
}

switches() {
    local names
    names=$(seq -s, 1 "$1" | sed 's/\([0-9]*\)/{"name":"F\1"}/g')
    echo "{\"features\":[$names]}"
}

# so many blocks of three kinds
blocks() {
    echo 'int a;'
    echo 'int b;'
    echo 'int main(void) {'
    awk -v n="$1" 'BEGIN {
        for (k = 0; k < n; k++) {
            f = (5 * k + n) % 8; c = k % 9 + 1; w = k % 50 + 10
            if (k % 3 == 0) printf "#ifdef F%d\na = input();\n#endif\n", f
            if (k % 3 == 1) printf "#if N >= %d\nwhile (b < %d) b++;\n#else\nb = 0;\n#endif\n", c, w
            if (k % 3 == 2) print "if (a > 0) b = b + 1; else b = 0;\nassert(b >= 0);"
        }
    }'
    echo '}'
}

# sixty groups over so many switches
groups() {
    echo 'int x;'
    echo 'int main(void) {'
    awk -v n="$1" 'BEGIN { for (k = 0; k < 60; k++) printf "#ifdef F%d\nx++;\nx--;\n#endif\n", k % n + 1 }'
    echo '}'
}

# so many loops in one another, each with a counter of its own
loops() {
    awk -v n="$1" 'BEGIN {
        for (k = 0; k < n; k++) printf "int c%d;\n", k
        print "int main(void) {"
        for (k = 0; k < n; k++) printf "while (c%d < 10) { c%d++;\n", k, k
        for (k = 0; k < n; k++) print "}"
        print "}"
    }'
}

echo 'int main(void) { }' > "$work/empty.c"
empty=0
empty=$(best plain "$work/empty.c")

names=$(seq -s, 0 7 | sed 's/\([0-9]*\)/{"name":"F\1"}/g')
echo "{\"features\":[$names,{\"name\":\"N\",\"min\":0,\"max\":9}]}" > "$work/blocks.json"
for count in 500 1000 2000; do
    blocks "$count" > "$work/blocks$count.c"
    echo "$count blocks: $(time_of analyse "$work/blocks.json" "$work/blocks$count.c") us, $(tail -n 1 "$work/out")"
done
for count in 1 30; do
    switches "$count" > "$work/groups$count.json"
    groups "$count" > "$work/groups$count.c"
    echo "60 groups over $count switches: $(time_of analyse "$work/groups$count.json" "$work/groups$count.c") us, $(tail -n 1 "$work/out")"
done
examples=$bench/../examples/families
echo "the queue: $(time_of analyse "$examples/queue.json" "$examples/queue.c") us, $(tail -n 1 "$work/out")"
echo "one variant of it: $(time_of variant "$examples/queue.json" "$examples/queue.c" LOG RETRY SAFE BULK SIZE=8 LIMIT=2) us, $(tail -n 1 "$work/out")"
for narrow in 1 8; do
    for count in 4 8 12; do
        loops "$count" > "$work/loops$count.c"
        echo "$count loops in one another, --narrow $narrow: $(time_of plain --narrow="$narrow" "$work/loops$count.c") us, $(tail -n 1 "$work/out")"
    done
done
