#!/usr/bin/env bash
# Writes the example files and what is expected of them as the source crates/program_tests/src/example_files.rt, so that a test of
# the gate keeps them true. Run it behind each change here. No gate runs this.
set -euo pipefail
here=$(cd "$(dirname "$0")" && pwd)
target=$here/../crates/program_tests/src/example_files.rt

# a file as a string of Rust; its last line has an end too
quoted() {
    [ -z "$(tail -c 1 "$1")" ] || { echo "to_tests.sh: $1 ends within a line" >&2; exit 1; }
    awk 'BEGIN { ORS = "" } { gsub(/\\/, "\\\\&"); gsub(/"/, "\\\""); gsub(/\t/, "\\t"); gsub(/\r/, "\\r"); print $0 "\\n" }' "$1"
}

# a pair of strings, of which the first is a text and the second a file
pair() {
    printf '    (\n        "%s",\n        "%s",\n    ),\n' "$1" "$(quoted "$2")"
}

# a constant NAME with the pairs of these outputs: the words of the command, and what is expected
commands() {
    local name=$1 output words
    shift
    echo "pub(crate) const $name: [(&str, &str); $#] = ["
    for output in "$@"; do
        words=${output%.*}.words
        if [ -e "$words" ]; then
            pair "$(tr -d '\n' < "$words")" "$output"
        else
            pair "plain $(basename "${output%.expected}").c" "$output"
        fi
    done
    echo '];'
}

# the outputs of FILES.. whose words begin with the name of a command that takes a setting, or with none of these
variants=' (variant|run|project) '
of_variants() {
    local output
    for output in "$@"; do
        [[ " $(cat "${output%.*}.words") " =~ $variants ]] && echo "$output"
    done
}
of_families() {
    local output
    for output in "$@"; do
        [[ " $(cat "${output%.*}.words") " =~ $variants ]] || echo "$output"
    done
}

# a constant NAME with these files, each under its name
contents() {
    local name=$1 file
    shift
    echo "pub(crate) const $name: [(&str, &str); $#] = ["
    for file in "$@"; do
        pair "$(basename "$file")" "$file"
    done
    echo '];'
}

cd "$here"
# the tests know each file by its name alone
twice=$(basename -a {,refused/}*.c {,refused/}families/*.{c,json,certificate} {,refused/}{,families/}*.expected families/*.html | sort | uniq -d)
[ -z "$twice" ] || { echo "to_tests.sh: in two folders: $twice" >&2; exit 1; }
{
    echo '//! The example files, and the words of commands on them with what is expected, as `examples/to_tests.sh` writes them.'
    echo
    echo '/// Programs without variants.'
    contents PROGRAM_FILES *.c
    echo
    echo '/// Those that are refused.'
    contents REFUSED_FILES refused/*.c
    echo
    echo '/// Families, with their models and certificates.'
    contents FAMILY_FILES families/*.{c,json,certificate}
    echo
    echo '/// Those that are refused.'
    contents REFUSED_FAMILY_FILES refused/families/*.{c,json,certificate}
    echo
    echo '/// The words of each command on a program without variants, with its output and then its line on the error stream.'
    commands PROGRAMS *.expected refused/*.expected
    echo
    echo '/// Those on families.'
    # shellcheck disable=SC2046 # (no name has a space)
    commands FAMILIES $(of_families families/*.expected families/*.html)
    echo
    echo '/// Those on one variant of a family.'
    # shellcheck disable=SC2046
    commands VARIANTS $(of_variants families/*.expected)
    echo
    echo '/// Those on families that are refused.'
    commands REFUSED_FAMILIES refused/families/*.expected
} > "$target"
cd "$here/../crates/program_tests" && rt fmt > /dev/null
