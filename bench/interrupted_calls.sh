#!/usr/bin/env bash
# Runs famlint with every second, and then every third, call of open, read and write interrupted by a signal (EINTR), and compares each
# run with one that nothing interrupts: status, output and error stream. It wants a C compiler, `cc`. No gate runs this.
#
#     bench/interrupted_calls.sh [PROGRAM]
set -euo pipefail
top=$(cd "$(dirname "$0")/.." && pwd)
program=${1:-$top/crates/famlint/out/famlint}
[ -x "$program" ] || { echo "interrupted_calls.sh: no program at $program" >&2; exit 1; }
work=$(mktemp -d)
trap 'rm -rf "$work"' EXIT

cat > "$work/interrupted.c" <<'C'
#define _GNU_SOURCE
#include <dlfcn.h>
#include <errno.h>
#include <fcntl.h>
#include <stdarg.h>
#include <stdio.h>
#include <stdlib.h>
#include <unistd.h>

static long calls, interrupts;

static int is_interrupted(void)
{
    if (++calls % atoi(getenv("EVERY")) != 0)
        return 0;
    interrupts++;
    errno = EINTR;
    return 1;
}

ssize_t read(int file, void *bytes, size_t count)
{
    ssize_t (*next)(int, void *, size_t) = dlsym(RTLD_NEXT, "read");
    return is_interrupted() ? -1 : next(file, bytes, count);
}

ssize_t write(int file, const void *bytes, size_t count)
{
    ssize_t (*next)(int, const void *, size_t) = dlsym(RTLD_NEXT, "write");
    return is_interrupted() ? -1 : next(file, bytes, count);
}

static int opened(const char *name, const char *path, int flags, int mode)
{
    int (*next)(const char *, int, ...) = dlsym(RTLD_NEXT, name);
    return is_interrupted() ? -1 : next(path, flags, mode);
}

#define OPEN(name)                                  \
    int name(const char *path, int flags, ...)      \
    {                                               \
        va_list rest;                               \
        va_start(rest, flags);                      \
        int mode = va_arg(rest, int);               \
        va_end(rest);                               \
        return opened(#name, path, flags, mode);    \
    }

OPEN(open)
OPEN(open64)

__attribute__((destructor)) static void tell(void)
{
    FILE *counted = fopen(getenv("COUNTED"), "w");
    if (counted)
        fprintf(counted, "%ld\n", interrupts);
}
C
cc -O2 -shared -fPIC -o "$work/interrupted.so" "$work/interrupted.c" -ldl

cd "$top/examples/families"
failed=0
while read -r line; do
    read -ra words <<< "$line"
    status=0
    "$program" "${words[@]}" > "$work/out" 2> "$work/err" || status=$?
    for every in 2 3; do
        again=0
        timeout 60 env EVERY=$every COUNTED="$work/count" LD_PRELOAD="$work/interrupted.so" "$program" "${words[@]}" \
            > "$work/out_again" 2> "$work/err_again" || again=$?
        told=same
        if [ $again != $status ] || ! cmp -s "$work/out" "$work/out_again" || ! cmp -s "$work/err" "$work/err_again"; then
            told=DIFFERENT
            failed=1
        fi
        echo "$told: of each $every calls one interrupted, $(cat "$work/count") in all, status $again: $line"
    done
done <<'COMMANDS'
analyse queue.json queue.c
certify ring.json ring.c
check ring.json ring.c ring.certificate
variant queue.json queue.c LOG SIZE=4 LIMIT=2
features queue.json
variant queue.json queue.c FAST SAFE SIZE=4 LIMIT=2
COMMANDS
exit $failed
