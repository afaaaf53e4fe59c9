#!/usr/bin/env bash
# Compares what `famlint` writes for each example with the file NAME.expected beside it, or the page NAME.html: for a file NAME.c here or in refused/ under
# `plain`, and for a file NAME.words here, in families/ or in refused/families/ under its words. What is compared is the output, and behind it the line on
# the error stream. Ends with 1 where one differs. It runs the proved program where that is built, and else all examples in one quick run of
# the same code before any proof, which compiles once, for minutes. No gate runs this.
set -u
here=$(cd "$(dirname "$0")" && pwd)
program=$here/../crates/famlint/out/famlint
work=$(mktemp -d)
trap 'rm -rf "$work"' EXIT
cd "$here" || exit 2

# a line for each example: its path without an ending, and the words
examples() {
    for example in *.c refused/*.c; do
        echo "${example%.c} plain ${example##*/}"
    done
    for example in *.words families/*.words refused/families/*.words; do
        echo "${example%.words} $(cat "$example")"
    done
}

# the name under which an example stands in $work
key_of() {
    echo "${1//\//-}"
}

# Writes the output and the error stream of each example to $work/KEY.out and KEY.err.
by_program() {
    while read -r -a words; do
        key=$(key_of "${words[0]}")
        (cd "$(dirname "${words[0]}")" && exec "$program" "${words[@]:1}") >"$work/$key.out" 2>"$work/$key.err" </dev/null
    done < <(examples)
}

# The same by one quick run: each example is a case, and a word that names a file is its path from here.
by_quick_run() {
    local -A files=()
    local data=()
    mkdir "$work/cases"
    while read -r -a words; do
        key=$(key_of "${words[0]}")
        folder=$(dirname "${words[0]}")
        : >"$work/cases/$key"
        for word in "${words[@]:1}"; do
            if [ -f "$folder/$word" ]; then
                word=$folder/$word
                files[$word]=1
            fi
            echo "$word"
        done >"$work/cases/$key.args"
    done < <(examples)
    for file in "${!files[@]}"; do
        data+=(--data "$file=$here/$file")
    done
    (cd ../crates/famlint && rt try --seconds 600 --cases "$work/cases" "${data[@]}") >"$work/out" 2>"$work/err" </dev/null
    awk -v work="$work" '/^== / { file = work "/" $2 ".out"; next } file { print > file }' "$work/out"
    # a line `case=KEY ..` stands behind the error stream of the case
    awk -v work="$work" '
        match($0, /^case=[^ ]+/) { printf "%s", text > (work "/" substr($0, 6, RLENGTH - 5) ".err"); text = ""; next }
        { text = text $0 "\n" }' "$work/err"
    if ! grep '^cases=' "$work/err" >&2; then
        cat "$work/err" >&2
        exit 2
    fi
}

# the file with what is expected of an example
expected_of() {
    if [ -e "$1.html" ]; then echo "$1.html"; else echo "$1.expected"; fi
}

# the lines of the program, without those of the quick run
lines() {
    grep -E '^(usage|model|file|configuration|certificate|read fault|write fault|want of memory)' "$1"
}

if [ -x "$program" ]; then
    by_program
else
    echo "check.sh: the proved program is not built: one quick run of the same code before any proof, which takes minutes" >&2
    by_quick_run
fi
same=0
differing=0
while read -r example _; do
    key=$(key_of "$example")
    touch "$work/$key.out" "$work/$key.err"
    if diff -u "$(expected_of "$example")" <(cat "$work/$key.out"; lines "$work/$key.err"); then
        same=$((same + 1))
    else
        differing=$((differing + 1))
    fi
done < <(examples)
echo "$same as expected, $differing not"
[ "$differing" = 0 ]
