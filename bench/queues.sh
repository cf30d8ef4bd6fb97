#!/usr/bin/env bash
# How long the program takes to serve the requests of a simulated disk, in each of the three orders:
# for 1,024, 2,048 and 4,096 requests, beyond the time of a text without requests; and the ratio of
# the last two, which is 2 where the time grows with the requests, and 2.18 where it grows with them
# times the logarithm of their number.
#
# Each request writes or reads one sector, in turn, at places that a fixed generator spreads over a
# disk of 16,384 sectors. They arrive at once, so that all of them wait; or one in 100 ticks, so that
# few do. The texts take turns, and each time is the least of its rounds.
set -eu
. "$(dirname "$0")/timing.sh"

rounds=${ROUNDS:-9}

# So many requests, so many ticks apart.
requests() {
    awk -v requests="$1" -v apart="$2" 'BEGIN {
        print "disk 16384"
        state = 1
        for (i = 0; i < requests; i++) {
            state = (state * 16807) % 2147483647
            first = state % 16384
            if (i % 2 == 0) printf "at %d write %d 1 %02x\n", i * apart, first, i % 256
            else printf "at %d read %d 1\n", i * apart, first
        }
    }'
}

for count in 0 1024 2048 4096; do
    for apart in 0 100; do requests "$count" "$apart" > "load$count.$apart"; done
done
for _ in $(seq "$rounds"); do
    for order in fifo sstf scan; do
        for count in 0 1024 2048 4096; do
            for apart in 0 100; do
                run "$order.$count.$apart" "load$count.$apart" --sim "$order"
            done
        done
    done
done
printf '%6s %6s %12s %12s %12s %8s\n' order apart '1024, ms' '2048, ms' '4096, ms' ratio
for order in fifo sstf scan; do
    for apart in 0 100; do
        awk -v order="$order" -v apart="$apart" -v none="${least[$order.0.$apart]}" \
            -v few="${least[$order.1024.$apart]}" -v some="${least[$order.2048.$apart]}" \
            -v most="${least[$order.4096.$apart]}" 'BEGIN {
            printf "%6s %6d %12.2f %12.2f %12.2f %8.2f\n", order, apart, (few - none) / 1e6,
                (some - none) / 1e6, (most - none) / 1e6, (most - none) / (some - none)
        }'
    done
done
