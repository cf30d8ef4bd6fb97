#!/usr/bin/env bash
# What a parity map spares and what it costs, in one interleaved run. An array of 1 GiB is opened by an empty script: with
# labels that aren't clean, so that all its stripes are swept; with clean ones and maps that mark one region of a hundred;
# and with clean ones alone. And 60,000 operations of 4 KiB run on a small array with --map and without it.
#
# Prints milliseconds, the least of the rounds, and ratios, and fails where opening behind the maps takes more than 5 % of
# the sweep over all stripes, or --map costs more than 3 %. The components lie in /dev/shm, where there is one and TMPDIR
# names no other place: a disk would be waited for at each settle, and what is measured is the work.
set -eu
if [ -z "${TMPDIR:-}" ] && [ -w /dev/shm ]; then export TMPDIR=/dev/shm; fi
. "$(dirname "$0")/timing.sh"

rounds=${ROUNDS:-7}
unit=32
stripes=16384
serial=1001
failed=0
declare -A maps=([plain]='' [map]=--map)

# A sector with the map of an array of so many stripes that marks each hundredth region.
map() {
    awk -v serial="$serial" -v stripes="$1" '
        function number(n, i) { for (i = 0; i < 4; i++) { printf "\\0%03o", n % 256; n = int(n / 256) } }
        BEGIN {
            size = int((stripes + 3967) / 3968); regions = int((stripes - 1) / size) + 1
            printf "RFPMAP01"; number(serial); number(size)
            for (byte = 0; byte < 496; byte++) {
                bits = 0
                for (bit = 0; bit < 8; bit++)
                    if (byte * 8 + bit < regions && (byte * 8 + bit) % 100 == 0) bits += 2 ^ bit
                printf "\\0%03o", bits
            }
        }'
}

# Puts a sector into this sector of a component.
put() {
    dd if="$1" of="$2" bs=512 seek="$3" count=1 conv=notrunc status=none
}

# The map, and the labels that weren't clean, on each component of the large array.
mark() {
    for disk in d0 d1 d2 d3 d4; do put marks "large.$disk" 1; done
}
soil() {
    for disk in d0 d1 d2 d3 d4; do put "large.dirty.$disk" "large.$disk" 0; done
}

# Labels an array, keeps its labels as they are then, which aren't clean, and makes them clean.
label() {
    local prefix=$1 disk
    "$program" "${prefix}conf" -I "$serial" > out
    for disk in d0 d1 d2 d3 d4; do head -c 512 "$prefix$disk" > "${prefix}dirty.$disk"; done
    "$program" "${prefix}conf" -i > out
    tail -n 1 out | grep -qx 'status ok'
}

: > empty
awk -v blocks=$((64 * 4 * 32)) 'BEGIN {
    state = 1
    for (i = 0; i < 60000; i++) {
        state = (state * 16807) % 2147483647; first = state % (blocks - 8 + 1)
        if (i % 2 == 0) printf "0 write %d 8 %02x\n", first, i % 256
        else printf "0 read %d 8\n", first
    }
}' > operations

array large. "$unit" "$stripes"
label large.
printf '%b' "$(map "$stripes")" > marks
array small. 32 64
label small.

# What is measured is what is meant.
mark
"$program" large.conf -m > out
regions=$(sed -n 's/^map regions \([0-9]*\) marked .*/\1/p' out)
marked=$(sed -n 's/^map regions .* marked \([0-9]*\)$/\1/p' out)
[ "$marked" = $(((regions + 99) / 100)) ]

for _ in $(seq "$rounds"); do
    soil
    run whole large.conf --io empty
    mark
    run marked large.conf --io empty
    run none large.conf --io empty
    for workers in 0 4; do
        for how in plain map map plain; do
            run "$how$workers" small.conf --io operations -w "$workers" ${maps[$how]}
        done
    done
done
"$program" large.conf -m > out
grep -qx "map regions $regions marked 0" out

# A line of the table: what, beside what, the two measurements, and the bound of their ratio, where there is one.
line() {
    awk -v what="$1" -v beside="$2" -v a="${least[$3]}" -v b="${least[$4]}" -v most="${5:-}" 'BEGIN {
        printf "%-52s %9.1f  %-12s %9.1f %8.3f %6s\n", what, a / 1e6, beside, b / 1e6, a / b, most
        exit most != "" && a > b * most
    }' || failed=1
}

printf '%-52s %9s  %-12s %9s %8s %6s\n' work ms beside ms ratio most
line "an empty script, $marked of $regions regions marked" 'all swept' marked whole 0.05
line 'an empty script, no region marked' 'all swept' none whole
least[marks]=$((least[marked] - least[none]))
least[sweep]=$((least[whole] - least[none]))
line 'the first, beyond the time with none marked' 'the same' marks sweep
for workers in 0 4; do
    line "60,000 operations of 4 KiB with --map, -w $workers" 'without it' "map$workers" "plain$workers" 1.03
done
[ "$failed" = 0 ] || { echo "a bound is passed"; exit 1; }
