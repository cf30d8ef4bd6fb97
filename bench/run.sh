#!/usr/bin/env bash
# What it takes to run a graph from its start to its end: reads, a commit that follows all of them, and a
# terminator, in which each node that ends is named by a node that still waits. Prints, for three sizes and as
# differences of two runs of the program, the counted instructions for each node and antecedent where valgrind is
# there, and else the nanoseconds.
set -eu
top=$(cd "$(dirname "$0")/.." && pwd)
program=$top/crates/bench/out/bench
[ -x "$program" ] || (cd "$top/crates/bench" && rt run > /dev/null)

# The instructions, or the nanoseconds, of so many runs of a graph of so many nodes.
spent() {
    if command -v valgrind > /dev/null; then
        valgrind --tool=callgrind --callgrind-out-file=/dev/null "$program" run "$1" "$2" 2>&1 > /dev/null |
            sed -n 's/.*Collected *: *\([0-9]*\).*/\1/p'
    else
        local begin end
        begin=$(date +%s%N)
        "$program" run "$1" "$2" > /dev/null
        end=$(date +%s%N)
        echo $((end - begin))
    fi
}

for nodes in 64 512 2048; do
    few=$(spent "$nodes" 0)
    many=$(spent "$nodes" 100)
    awk -v nodes="$nodes" -v spent="$((many - few))" \
        'BEGIN { printf "%d nodes, %d antecedents: %.1f for each node and antecedent\n", nodes, nodes - 1, spent / 100 / (2 * nodes - 1) }'
done
