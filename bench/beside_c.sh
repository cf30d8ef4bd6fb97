#!/usr/bin/env bash
# The program beside level 5 in plain C (plain5.c, by cc -O3), in one interleaved run: 60,000 operations of 4 KiB with no
# worker, one and four; an empty script; 128 MiB of writes and of reads of whole stripes; and parity, initialised beside
# plain5.c and checked beside cat, over 320 MiB of components at units of 1, 8, 32 and 128 sectors. First the outputs of
# both, and what they leave on the components, are compared byte for byte.
#
# A round measures all once on each processor; four workers run on all of them. A processor that shares its core with
# another machine's, or with another of this one's, takes half as long again, for minutes: so no time is told by one alone.
#
# Prints milliseconds, the least of the rounds, and ratios. The files are in the system's cache; where TMPDIR is on a disk,
# the settle of the components waits for it on both sides.
set -eu
here=$(cd "$(dirname "$0")" && pwd)
. "$here/timing.sh"
command -v cc > /dev/null || { echo "no C compiler here: nothing was measured"; exit 0; }
cc -O3 -o plain5 "$here/plain5.c"
plain5=./plain5

rounds=${ROUNDS:-7}
units='1 8 32 128'

# So many operations of so many clients: writes and reads in turn, at blocks that a fixed generator spreads over the array.
operations() {
    awk -v operations="$1" -v clients="$2" -v blocks=$((64 * 4 * 32)) 'BEGIN {
        state = 1
        for (i = 0; i < operations; i++) {
            state = (state * 16807) % 2147483647
            first = state % (blocks - 8 + 1)
            client = int(i / 2) % clients
            if (i % 2 == 0) printf "%d write %d 8 %02x\n", client, first, i % 256
            else printf "%d read %d 8\n", client, first
        }
    }'
}

# Spans of any length up to 1,000 blocks: a stripe has 128.
spans() {
    awk -v blocks=$((64 * 4 * 32)) 'BEGIN {
        state = 7
        for (i = 0; i < 2000; i++) {
            state = (state * 16807) % 2147483647; count = 1 + state % 1000
            state = (state * 16807) % 2147483647; first = state % (blocks - count + 1)
            if (i % 2 == 0) printf "0 write %d %d %02x\n", first, count, i % 256
            else printf "0 read %d %d\n", first, count
        }
    }' | awk '{ if ($2 == "read") sectors += $4; if (sectors <= 262144) print }'
}

# The components of the array with this prefix.
components() {
    echo "$1d0" "$1d1" "$1d2" "$1d3" "$1d4"
}

# Plain C on the array with this prefix and this unit, in a named measurement.
plain() {
    local name=$1 how=$2 prefix=$3 unit=$4 script=$5
    # shellcheck disable=SC2046
    timed "$name" "$plain5" "$how" "$unit" $(components "$prefix") < "$script"
    tail -n 1 out | grep -qx 'status ok'
}

reading() {
    cat "$@" > /dev/null
}

# Both have to print the same, and to leave the same on the components.
compare() {
    local what=$1 conf=$2 how=$3 unit=$4 script=$5 disk
    shift 5
    "$program" "$conf" "$@" > printed
    # shellcheck disable=SC2046
    "$plain5" "$how" "$unit" $(components plain.) < "$script" > out
    cmp printed out
    for disk in 0 1 2 3 4; do cmp "d$disk" "plain.d$disk"; done
    echo "$what: the same output, and the same components"
}

operations 60000 1 > one
operations 60000 8 > eight
spans > spans
: > empty
awk 'BEGIN { for (s = 0; s < 512; s++) printf "0 write %d 512 %02x\n", s * 512, s % 256 }' > stripes
awk 'BEGIN { for (s = 0; s < 512; s++) printf "0 read %d 512\n", s * 512 }' > back

array '' 32 64
array plain. 32 64
compare '60,000 operations' conf run 32 one --io one -w 0
compare 'long spans' conf run 32 spans --io spans -w 0
compare 'parity' conf init 32 empty -i
rm plain.*

array wide. 128 512
for unit in $units; do array "$unit." "$unit" $((256 * 2048 / 4 / unit)); done

built=$program
for round in $(seq "$rounds"); do
    for processor in $processors; do
        copies "$round.$processor" "$built" ./plain5
        program=$folder/$(basename "$built").$round.$processor plain5=./plain5.$round.$processor
        on "$processor"
        # Each copy runs once unmeasured: a first run that syncs its components waits for what was written just before, too.
        run first conf --io empty -w 0
        plain c.first run '' 32 empty
        run none conf --io empty -w 0
        plain c.none run '' 32 empty
        for workers in 0 1; do run "one$workers" conf --io one -w "$workers"; done
        plain c.one run '' 32 one
        run eight0 conf --io eight -w 0
        run writes wide.conf --io stripes -w 0
        plain c.writes run wide. 128 stripes
        run reads wide.conf --io back -w 0
        plain c.reads run wide. 128 back
        for unit in $units; do
            run "init$unit" "$unit.conf" -i
            plain "c.init$unit" init "$unit." "$unit" empty
            run "check$unit" "$unit.conf" -p
            # shellcheck disable=SC2046
            timed "cat$unit" reading $(components "$unit.")
        done
        on "$allowed"
        for clients in one eight; do run "${clients}4" conf --io "$clients" -w 4; done
    done
done

# A line of the table: what, beside what, and the two measurements.
line() {
    awk -v what="$1" -v beside="$2" -v a="${least[$3]}" -v b="${least[$4]}" 'BEGIN {
        printf "%-44s %9.1f  %-12s %9.1f %8.2f\n", what, a / 1e6, beside, b / 1e6, a / b
    }'
}

printf '%-44s %9s  %-12s %9s %8s\n' work ms beside ms ratio
line '60,000 operations of 4 KiB, -w 0' 'plain C' one0 c.one
line 'the same, -w 1' '-w 0' one1 one0
line 'the same, -w 4' '-w 0' one4 one0
line 'the same of eight clients, -w 4' '-w 0' eight4 eight0
line 'an empty script' 'plain C' none c.none
line '128 MiB in writes of whole stripes' 'plain C' writes c.writes
line '128 MiB in reads of whole stripes' 'plain C' reads c.reads
for unit in $units; do line "-p over 320 MiB, units of $unit" cat "check$unit" "cat$unit"; done
for unit in $units; do line "-i over 320 MiB, units of $unit" 'plain C' "init$unit" "c.init$unit"; done
