#!/usr/bin/env bash
# Holds each block design of designs/ against what the program makes of it: the design is one (else the configuration is
# refused), a table has its stripes, each column has equally many check units, and as a column is rebuilt each other one is
# read as often as two objects stand in tuples together, once for each unit of a stripe. At level D too, where a tuple has
# three objects or more. And one that has too many tuples is refused.
set -u
here=$(cd "$(dirname "$0")" && pwd)
top=$(dirname "$here")
program=$top/crates/raidctl/out/raidctl
# An installed copy.
[ -e "$top/demo.sh" ] || program=$top/../../../bin/raidctl
[ -x "$program" ] || "$top/demo.sh" > /dev/null

folder=$(mktemp -d "${TMPDIR:-/tmp}/raidctl.XXXXXX")
trap 'rm -rf "$folder"' EXIT
cd "$folder" || exit 1
passed=0
failed=0

# Counts whether two words are the same, and tells it if not: what it is about, what is wanted, what came.
same() {
    if [ "$2" = "$3" ]; then
        passed=$((passed + 1))
    else
        failed=$((failed + 1))
        echo "designs: $1: $3, not $2"
    fi
}

# A configuration of so many disks, by a level and the lines of a design.
conf() {
    echo 'START array'
    echo "1 $1 0"
    echo 'START disks'
    seq -f 'd%g' 0 $(($1 - 1))
    echo 'START layout'
    echo "1 1 1 $2"
    cat "$3"
}

# The number behind a word of the first line.
first() {
    head -n 1 told | grep -o " $1 [0-9]*" | grep -o '[0-9]*$'
}

# What the last words of certain lines are, each once.
each() {
    grep -E "$1" told | sed -E "s/$1.*/\\1/" | sort -u | tr '\n' ' '
}

for file in "$top"/designs/[0-9]*; do
    name=$(basename "$file")
    IFS=- read -r columns units both <<< "$name"
    pairs=$((both * columns * (columns - 1)))
    tuples=$((pairs / (units * (units - 1))))
    conf "$columns" T "$file" > conf
    "$program" conf --layout > told
    same "$name: the exit" 0 $?
    same "$name: columns" "$columns" "$(first columns)"
    same "$name: units of a stripe" "$units" "$(first width)"
    same "$name: stripes" $((tuples * units)) "$(first stripes)"
    same "$name: check units of a column" "$((tuples * units / columns)) " "$(each 'column [0-9]+ data [0-9]+ check ([0-9]+)')"
    same "$name: pairs of columns" $((columns * (columns - 1))) "$(grep -c '^rebuild' told)"
    same "$name: what a rebuild reads" "$((both * units)) " "$(each 'rebuild [0-9]+ column [0-9]+ reads ([0-9]+)')"
    conf "$columns" D "$file" > conf
    "$program" conf --layout > told
    same "$name at level D: the exit" 0 $?
    same "$name at level D: units of a stripe" $((units - 1)) "$(first width)"
done

# 4,368 tuples.
conf 16 T <(echo 'complete 16 5') > conf
"$program" conf --layout > told 2> said
same 'too many tuples: the exit' 2 $?
same 'too many tuples: the status' 'status conf 22 12' "$(cat told)"

echo "designs: $passed passed, $failed failed"
[ "$failed" = 0 ]
