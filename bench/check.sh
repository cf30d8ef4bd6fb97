#!/usr/bin/env bash
# What it takes to check a graph at the limits: 2,048 nodes, 2,048 buffers, 16,384 sources and
# antecedents. Prints the size, the seconds of one check, and, where valgrind is there, its counted
# instructions, beside nodes times edges, by which the work is bounded.
set -eu
top=$(cd "$(dirname "$0")/.." && pwd)
program=$top/crates/bench/out/bench
[ -x "$program" ] || (cd "$top/crates/bench" && rt run > /dev/null)

begin=$(date +%s%N)
answer=$("$program" check)
end=$(date +%s%N)
echo "$answer"
checks=$(echo "$answer" | sed -n 's/^checked \([0-9]*\) times.*/\1/p')
nodes=$(echo "$answer" | sed -n 's/^\([0-9]*\) nodes.*/\1/p')
edges=$(echo "$answer" | sed -n 's/.* \([0-9]*\) edges$/\1/p')
awk -v ns="$((end - begin))" -v checks="$checks" \
    'BEGIN { printf "seconds for one check, reading the graph counted in: %.4f\n", ns / 1e9 / checks }'
echo "nodes times edges: $((nodes * edges))"

if command -v valgrind > /dev/null; then
    counted=$(valgrind --tool=callgrind --callgrind-out-file=/dev/null "$program" check 2>&1 > /dev/null |
        sed -n 's/.*Collected *: *\([0-9]*\).*/\1/p')
    echo "instructions for one check, reading the graph counted in: $((counted / checks))"
fi
