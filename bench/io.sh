#!/usr/bin/env bash
# How many operations a second the program makes on real files, beside cat and cp of as many bytes in
# the same run: with no worker, one and four, for one client and for eight; the ratio of its times for
# 60,000 and for 10,000 operations, also beyond the time of a script without operations, which is near
# 6 where the time grows with the operations; and 128 MiB of writes of whole stripes.
#
# The array is of level 5 on five columns of 64 rows with units of 32 sectors: small, so that the first
# touch of each of its pages is a small part of 10,000 operations. Each operation is a write or a read
# of eight sectors, in turn, at blocks that a fixed generator spreads over the array. The scripts take
# turns, and each time is the least of its rounds.
set -eu
. "$(dirname "$0")/timing.sh"

stripes=64
unit=32
count=8
rounds=${ROUNDS:-9}

# So many operations of so many clients in turn. The span begins at any block from which it fits.
script() {
    awk -v operations="$1" -v clients="$2" -v blocks=$((stripes * 4 * unit)) -v count="$count" 'BEGIN {
        state = 1
        for (i = 0; i < operations; i++) {
            state = (state * 16807) % 2147483647
            first = state % (blocks - count + 1)
            client = int(i / 2) % clients
            if (i % 2 == 0) printf "%d write %d %d %02x\n", client, first, count, i % 256
            else printf "%d read %d %d\n", client, first, count
        }
    }'
}

array '' "$unit" "$stripes"
for operations in 0 1000 10000 60000; do
    script "$operations" 1 > "script1.$operations"
    script "$operations" 8 > "script8.$operations"
    head -c $((operations * count * 512)) /dev/urandom > "plain$operations"
done

# 128 MiB in writes of one stripe of units of 128 sectors: four data units each.
array wide 128 512
awk 'BEGIN { for (s = 0; s < 512; s++) printf "0 write %d 512 %02x\n", s * 512, s % 256 }' > whole
head -c $((512 * 512 * 512)) /dev/urandom > plain

for _ in $(seq "$rounds"); do
    for operations in 0 1000 10000 60000; do
        for workers in 0 1 4; do
            for clients in 1 8; do
                run "run$operations.$workers.$clients" conf --io "script$clients.$operations" -w "$workers"
            done
        done
        timed "cat$operations" cat "plain$operations"
        timed "cp$operations" cp "plain$operations" copy
    done
    for workers in 0 4; do
        run "whole.$workers" wideconf --io whole -w "$workers"
    done
    timed "cpwhole" cp plain copy
done

printf '%10s %8s %8s %12s %10s %10s %10s\n' operations workers clients operations/s MiB/s 'cat MiB/s' 'cp MiB/s'
for operations in 1000 10000 60000; do
    for workers in 0 1 4; do
        for clients in 1 8; do
            awk -v operations="$operations" -v workers="$workers" -v clients="$clients" -v bytes=$((operations * count * 512)) \
                -v run="${least[run$operations.$workers.$clients]}" -v cat="${least[cat$operations]}" -v cp="${least[cp$operations]}" 'BEGIN {
                mib = bytes / 1048576
                printf "%10d %8d %8d %12.0f %10.1f %10.1f %10.1f\n", operations, workers, clients,
                    operations / run * 1e9, mib / run * 1e9, mib / cat * 1e9, mib / cp * 1e9
            }'
        done
    done
done
for workers in 0 1 4; do
    awk -v workers="$workers" -v most="${least[run60000.$workers.1]}" -v some="${least[run10000.$workers.1]}" -v none="${least[run0.$workers.1]}" 'BEGIN {
        printf "%d workers: time for 60000 operations / time for 10000: %.2f, each beyond the time without operations: %.2f\n",
            workers, most / some, (most - none) / (some - none)
    }'
done
for workers in 0 4; do
    awk -v workers="$workers" -v run="${least[whole.$workers]}" -v cp="${least[cpwhole]}" 'BEGIN {
        printf "128 MiB of whole stripes, %d workers: %.1f MiB/s, cp %.1f MiB/s\n", workers, 128 / run * 1e9, 128 / cp * 1e9
    }'
done
