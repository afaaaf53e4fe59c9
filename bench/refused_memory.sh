#!/usr/bin/env bash
# Runs the proved program on some commands with the n-th demand for memory refused, for n = 1, 2 and so on until a run meets none. Each
# run must end as the command does with ample memory, or with status 8, an empty output and the line `want of memory`; the first may have no
# line, where `main` has not got the words yet. Prints a line a command: how many runs there were, and how many ended with 8. Ends with 1
# where a run ended in another way. It wants a C compiler, for the library that refuses, and the program at crates/famlint/out/famlint. No
# gate runs this.
set -u
top=$(cd "$(dirname "$0")/.." && pwd)
famlint=$top/crates/famlint/out/famlint
[ -x "$famlint" ] || { echo "refused_memory.sh: build the proved program first: cd $top/crates/famlint && rt run" >&2; exit 2; }
work=$(mktemp -d)
trap 'rm -rf "$work"' EXIT
cat > "$work/refuse.c" <<'C'
/* Refuses the n-th demand for memory, by the number in REFUSE_AT, and tells in the file REFUSE_TOLD that it did. */
#define _GNU_SOURCE
#include <dlfcn.h>
#include <errno.h>
#include <fcntl.h>
#include <stdlib.h>
#include <unistd.h>
static long at = -1, count;
static int refuses(void) {
    if (at < 0) { char *text = getenv("REFUSE_AT"); at = text ? atol(text) : 0; }
    if (++count != at) return 0;
    int told = open(getenv("REFUSE_TOLD"), O_WRONLY | O_CREAT, 0600);
    if (told >= 0) close(told);
    errno = ENOMEM;
    return 1;
}
void *malloc(size_t n) {
    static void *(*next)(size_t);
    if (!next) next = dlsym(RTLD_NEXT, "malloc");
    return refuses() ? 0 : next(n);
}
void *realloc(void *p, size_t n) {
    static void *(*next)(void *, size_t);
    if (!next) next = dlsym(RTLD_NEXT, "realloc");
    return refuses() ? 0 : next(p, n);
}
void *aligned_alloc(size_t a, size_t n) {
    static void *(*next)(size_t, size_t);
    if (!next) next = dlsym(RTLD_NEXT, "aligned_alloc");
    return refuses() ? 0 : next(a, n);
}
int posix_memalign(void **p, size_t a, size_t n) {
    static int (*next)(void **, size_t, size_t);
    if (!next) next = dlsym(RTLD_NEXT, "posix_memalign");
    return refuses() ? ENOMEM : next(p, a, n);
}
C
cc -O1 -shared -fPIC -o "$work/refuse.so" "$work/refuse.c" -ldl || exit 2

cd "$work" || exit 2
cp "$top"/examples/families/queue.{c,json} .
echo '{"features":[]}' > none.json
echo '{"features":[{"name":"A"}]}' > switch.json
echo 'int main(void) { }' > empty.c
printf '%s\n' 'int x;' 'int i;' 'int main(void) {' 'while (i < 10) {' 'i++;' '#ifdef A' 'x = x;' '#else' 'x = x + 1;' '#endif' '}' \
    'assert(x == 0);' '}' > count.c
printf '%s\n' 'int x;' 'int y;' 'int main(void) {' 'y = x;' 'while (x < 100) {' 'x++;' 'y++;' '}' 'assert(x == y);' '}' > two.c
wrong=0

# the status, the output and the line of a command, with the demand of this number refused
ran() {
    rm -f told
    REFUSE_AT=$1 REFUSE_TOLD=$work/told LD_PRELOAD=$work/refuse.so "$famlint" "${words[@]}" > out 2> err
    status=$?
}

# all runs of a command, which ends with this status and writes this output with ample memory
refused() {
    local wanted=$1 output=$2 runs=0 given_up=0 early=0
    shift 2
    words=("$@")
    while :; do
        runs=$((runs + 1))
        ran $runs
        if [ $status = 8 ] && [ ! -s out ] && [ "$(cat err)" = "want of memory" ]; then
            given_up=$((given_up + 1))
        elif [ $status = 8 ] && [ ! -s out ] && [ ! -s err ] && [ $given_up = 0 ]; then
            early=$((early + 1))
        elif [ $status != "$wanted" ] || [ "$(cat out)" != "$output" ] || [ -s err ]; then
            echo "$*: demand $runs refused: status $status"
            wrong=1
        fi
        [ -e told ] || break
    done
    echo "$*: $runs runs, $early before the words were there, $given_up with want of memory"
}

refused 0 'alarms: 0' plain empty.c
refused 1 '9:1: overflow if !A; example A=0
12:1: assertion if !A; example A=0
alarms: 2' analyse switch.json count.c
refused 0 '4:1: if 1: x in [0,0], y in [0,0]
5:1: if 1: x in [0,100], y in [0,100], x-y in [0,0]
5:17: if 1: x in [0,99], y in [0,99], x-y in [0,0]
6:1: if 1: x in [0,99], y in [0,99], x-y in [0,0]
7:1: if 1: x in [1,100], y in [0,99], x-y in [1,1]
9:1: if 1: x in [100,100], y in [100,100]
10:1: if 1: x in [100,100], y in [100,100]
alarms: 0' invariants --domain octagon none.json two.c
refused 0 'bytes: 164
places: 9
alarms: 0' generate 3
refused 1 "$(cat "$top/examples/families/queue_all.expected")" analyse queue.json queue.c
refused 1 '34:5: zero-divisor
alarms: 1' variant queue.json queue.c FAST RETRY SIZE=4 LIMIT=2
refused 0 'waiting 11:5 count=0 tries=3 logged=0 load=0' run queue.json queue.c SAFE SIZE=4 LIMIT=2
refused 1 'famlint certificate 1 stop
loop 4:1 if !A: x in [0,2147483647], i in [0,10]
loop 4:1 if A: x in [0,0], i in [0,10]
alarm 9:1: overflow if !A
alarm 12:1: assertion if !A' certify switch.json count.c
printf '%s\n' 'famlint certificate 1 stop' 'loop 4:1 if !A: x in [0,2147483647], i in [0,10]' 'loop 4:1 if A: x in [0,0], i in [0,10]' \
    'alarm 9:1: overflow if !A' 'alarm 12:1: assertion if !A' > count.certificate
refused 0 'certificate: yes, 2 alarms' check switch.json count.c count.certificate
exit $wrong
