#!/usr/bin/env bash
# How fast parity is initialised (-i) and checked (-p) over 256 MiB of data, at level 5 on five
# components with units of 32 and of 128 sectors: beside cat of the same files, and, where there is a
# C compiler, beside a C program that reads the units of one row after the other, takes their
# exclusive-or by a plain loop and looks whether that is zero. Prints MiB/s, counting the bytes of all
# components, and ratios of times. The files are in the system's cache; -i ends with a settle of each
# component, which may wait for the disk, and all else but that reads alone.
set -eu
. "$(dirname "$0")/timing.sh"

rounds=${ROUNDS:-5}

# The same bytes without the program.
reading() {
    cat "$@" > /dev/null
}

if command -v cc > /dev/null; then
    cat > xor.c <<'TEXT'
#include <fcntl.h>
#include <stdio.h>
#include <stdlib.h>
#include <unistd.h>
enum { DISKS = 5, MOST = 128 * 512 };
static unsigned char sum[MOST], next[MOST];
static void take(int file, unsigned char *to, size_t bytes, off_t at) {
    if (pread(file, to, bytes, at) != (ssize_t)bytes) exit(1);
}
int main(int count, char **words) {
    if (count != 3 + DISKS) return 1;
    size_t bytes = 512 * strtoul(words[1], 0, 10);
    unsigned long rows = strtoul(words[2], 0, 10), found = 0;
    int files[DISKS];
    for (int d = 0; d < DISKS; d++)
        if ((files[d] = open(words[3 + d], O_RDONLY)) < 0) return 1;
    for (unsigned long row = 0; row < rows; row++) {
        off_t at = 64 * 512 + (off_t)(row * bytes);
        take(files[0], sum, bytes, at);
        for (int d = 1; d < DISKS; d++) {
            take(files[d], next, bytes, at);
            for (size_t i = 0; i < bytes; i++) sum[i] ^= next[i];
        }
        unsigned char some = 0;
        for (size_t i = 0; i < bytes; i++) some |= sum[i];
        found += some != 0;
    }
    printf("%lu\n", found);
    return 0;
}
TEXT
    cc -O3 -o xor xor.c
fi

# As many stripes of units of so many sectors as 256 MiB of data have.
stripes() {
    echo $((256 * 2048 / (4 * $1)))
}

for unit in 32 128; do
    array "$unit." "$unit" "$(stripes "$unit")"
done
for _ in $(seq "$rounds"); do
    for unit in 32 128; do
        files=("$unit.d0" "$unit.d1" "$unit.d2" "$unit.d3" "$unit.d4")
        run "init$unit" "$unit.conf" -i
        run "check$unit" "$unit.conf" -p
        timed "cat$unit" reading "${files[@]}"
        if [ -x xor ]; then
            timed "xor$unit" ./xor "$unit" "$(stripes "$unit")" "${files[@]}"
            grep -qx 0 out
        fi
    done
done

printf '%5s %10s %10s %10s %10s %8s %8s %8s %8s\n' unit '-i MiB/s' '-p MiB/s' 'cat MiB/s' 'xor MiB/s' -i/cat -p/cat -i/xor -p/xor
for unit in 32 128; do
    awk -v unit="$unit" -v mib="$((256 * 5 / 4))" -v init="${least[init$unit]}" -v check="${least[check$unit]}" \
        -v cat="${least[cat$unit]}" -v xor="${least[xor$unit]:-0}" '
        function rate(time) { return time > 0 ? sprintf("%.0f", mib / time * 1e9) : "-" }
        function ratio(time, by) { return by > 0 ? sprintf("%.2f", time / by) : "-" }
        BEGIN {
            printf "%5d %10s %10s %10s %10s %8s %8s %8s %8s\n", unit, rate(init), rate(check), rate(cat), rate(xor),
                ratio(init, cat), ratio(check, cat), ratio(init, xor), ratio(check, xor)
        }'
done
