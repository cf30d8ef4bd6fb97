#!/usr/bin/env bash
# Several workers beside one, on devices that are slow: each read and each write of a component takes a millisecond longer, by
# a small library that is loaded before the program's own. With clients in stripes of their own, four workers should take
# about a quarter of the time that one takes, and sixteen about a sixteenth.
set -eu
here=$(cd "$(dirname "$0")" && pwd)
. "$here/timing.sh"
command -v cc > /dev/null || { echo "no C compiler here: nothing was measured"; exit 0; }

cat > slow.c <<'TEXT'
#define _GNU_SOURCE
#include <dlfcn.h>
#include <sys/types.h>
#include <unistd.h>
static void wait_a_little(void) { usleep(1000); }
ssize_t pread64(int file, void *to, size_t count, off_t at) {
    static ssize_t (*next)(int, void *, size_t, off_t);
    if (!next) next = dlsym(RTLD_NEXT, "pread64");
    wait_a_little();
    return next(file, to, count, at);
}
ssize_t pread(int file, void *to, size_t count, off_t at) { return pread64(file, to, count, at); }
ssize_t pwrite64(int file, const void *from, size_t count, off_t at) {
    static ssize_t (*next)(int, const void *, size_t, off_t);
    if (!next) next = dlsym(RTLD_NEXT, "pwrite64");
    wait_a_little();
    return next(file, from, count, at);
}
ssize_t pwrite(int file, const void *from, size_t count, off_t at) { return pwrite64(file, from, count, at); }
TEXT
cc -O2 -shared -fPIC -o slow.so slow.c -ldl

# A level 5 of so many components, with units of eight sectors and 64 stripes. A component serves one call at a time.
wide() {
    local components=$1 c
    {
        printf 'START array\n1 %d 0\nSTART disks\n' "$components"
        for ((c = 0; c < components; c++)); do echo "d$c"; done
        printf 'START layout\n8 1 1 5\n'
    } > conf
    for ((c = 0; c < components; c++)); do head -c $((512 * (64 + 8 * 64))) /dev/zero > "d$c"; done
}

# 25 writes of each of so many clients, each of the first unit of a stripe. No two clients write to the same stripe: the
# stripes of two stand so far apart at least. At a distance of two they have no component in common.
writes() {
    awk -v clients="$1" -v stripe=$((8 * ($2 - 1))) -v apart="$3" 'BEGIN {
        for (i = 0; i < 25; i++)
            for (c = 0; c < clients; c++)
                printf "%d write %d 8 %02x\n", c, apart * (c + clients * (i % (64 / apart / clients))) * stripe, i
    }'
}

# So many workers beside one, with as many clients, components and stripes between them as that.
beside_one() {
    local workers=$1 clients=$2 components=$3 apart=$4
    wide "$components"
    writes "$clients" "$components" "$apart" > script
    LD_PRELOAD=$folder/slow.so run "one.$clients" conf --io script -w 1
    LD_PRELOAD=$folder/slow.so run "several.$clients" conf --io script -w "$workers"
    awk -v one="${least[one.$clients]}" -v several="${least[several.$clients]}" 'BEGIN { print one / 1e9, several / 1e9, several / one }' |
        while read -r one several ratio; do
            printf '%d clients, %d components: one worker %.3f s, %d workers %.3f s, ratio %.2f\n' \
                "$clients" "$components" "$one" "$workers" "$several" "$ratio"
        done
}

beside_one 4 8 5 1
beside_one 16 16 32 2
