#!/usr/bin/env bash
# Runs famlint with the words given: the proved program where it is built, and else a quick run of the same code
# before any proof, which says so on the error stream. Each quick run compiles anew, for about two minutes: for many commands use
# one `rt try --cases`, as examples/check.sh does.
set -u
top=$(cd "$(dirname "$0")" && pwd)
program=$top/crates/famlint/out/famlint
if [ -x "$program" ]; then
    exec "$program" "$@"
fi
echo "famlint.sh: an unproved quick run, which compiles for about two minutes, as each one does; to prove and build the program:" \
    "cd $top/crates/famlint && rt run -- plain FILE" >&2

# How many paths a command has, behind its name.
paths_of() {
    case $1 in
    plain | features) echo 1 ;;
    analyse | invariants | page | certify | project | variant | run | advise) echo 2 ;;
    check) echo 3 ;;
    *) echo 0 ;;
    esac
}

# The quick run works in another folder, so paths are given whole. An option without `=` has its value in the next word, and
# behind the first `--` each word is positional.
words=()
positional=0
paths=0
is_value=no
has_options=yes
for word in "$@"; do
    if [ $is_value = yes ]; then
        is_value=no
    elif [ $has_options = yes ] && [ "$word" = -- ]; then
        has_options=no
    elif [ $has_options = yes ] && [[ $word == -?* ]]; then
        [[ $word == *=* ]] || is_value=yes
    else
        positional=$((positional + 1))
        if [ $positional = 1 ]; then
            paths=$(paths_of "$word")
        elif [ $positional -le $((paths + 1)) ] && [[ $word != /* ]]; then
            word=$PWD/$word
        fi
    fi
    words+=("$word")
done
cd "$top/crates/famlint" || exit 10
exec rt try -- ${words[@]+"${words[@]}"}
