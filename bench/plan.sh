#!/usr/bin/env bash
# What it takes to plan an operation at the limits: a write of 16 stripes of 31 data units of 128
# sectors. Prints the graph's size and, as differences of two runs of the program, the seconds of one
# plan and, where valgrind is there, its counted instructions.
set -eu
top=$(cd "$(dirname "$0")/.." && pwd)
program=$top/crates/bench/out/bench
[ -x "$program" ] || (cd "$top/crates/bench" && rt run > /dev/null)

few=100
many=10100
plans=$((many - few))
"$program" plan "$few"

# The nanoseconds of a run that plans so often.
clocked() {
    local begin end
    begin=$(date +%s%N)
    "$program" plan "$1" > /dev/null
    end=$(date +%s%N)
    echo $((end - begin))
}
awk -v less="$(clocked "$few")" -v more="$(clocked "$many")" -v plans="$plans" \
    'BEGIN { printf "seconds for one plan: %.7f\n", (more - less) / 1e9 / plans }'

# The instructions of such a run.
counted() {
    valgrind --tool=callgrind --callgrind-out-file=/dev/null "$program" plan "$1" 2>&1 > /dev/null |
        sed -n 's/.*Collected *: *\([0-9]*\).*/\1/p'
}
if command -v valgrind > /dev/null; then
    echo "instructions for one plan: $((($(counted 1100) - $(counted 100)) / 1000))"
fi
