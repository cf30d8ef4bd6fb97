#!/usr/bin/env bash
# How fast a column of 256 MiB is reconstructed (-F onto a spare, -R back onto its disk), at level 5 on
# five components with units of 128 sectors, with no worker and with four: beside cat of what has to be
# read and written, which is the four other components and a file of the column's size, synced, as the
# program settles it. Prints MiB/s, counting all these bytes, and ratios of times. Then, where there is
# strace, which share of the other components' sectors a reconstruction reads: of each all at level 5,
# and (K - 1) / (v - 1) of them where K of v columns share a stripe, by a block design.
set -eu
. "$(dirname "$0")/timing.sh"

rounds=${ROUNDS:-5}

# A labelled array with a spare: its prefix, columns, rows, the unit in sectors, and its level with, at
# level T, the design's line behind it.
labelled() {
    local prefix=$1 columns=$2 rows=$3 unit=$4 level=$5 disk disks
    disks=$(seq -f "${prefix}d%g" 0 $((columns - 1)))
    printf 'START array\n1 %d 1\nSTART disks\n%s\nSTART spare\n%ss0\nSTART layout\n%d 1 1 %s\n' \
        "$columns" "$disks" "$prefix" "$unit" "$level" > "${prefix}conf"
    for disk in $disks "${prefix}s0"; do
        head -c $((512 * (64 + unit * rows))) /dev/zero > "$disk"
    done
    "$program" "${prefix}conf" -I 1 > /dev/null
    "$program" "${prefix}conf" -i > /dev/null
}

# The same bytes without the program.
moving() {
    cat wide.d0 wide.d2 wide.d3 wide.d4 > /dev/null
    cat wide.d1 > copy
    sync copy
}

labelled wide. 5 4096 128 5
for _ in $(seq "$rounds"); do
    for workers in 0 4; do
        run "onto$workers" wide.conf -F wide.d1 -w "$workers"
        grep -qx 'reconstruct column 1 device 5 done 4096' out
        run "back$workers" wide.conf -R wide.d1 -w "$workers"
        grep -qx 'reconstruct column 1 device 1 done 4096' out
    done
    timed moving moving
done

printf '%8s %10s %10s %10s %8s %8s\n' workers '-F MiB/s' '-R MiB/s' 'cat MiB/s' -F/cat -R/cat
for workers in 0 4; do
    awk -v workers="$workers" -v mib="$((256 * 5))" -v onto="${least[onto$workers]}" -v back="${least[back$workers]}" \
        -v cat="${least[moving]}" 'BEGIN {
            printf "%8d %10.0f %10.0f %10.0f %8.2f %8.2f\n", workers, mib / onto * 1e9, mib / back * 1e9, mib / cat * 1e9,
                onto / cat, back / cat
        }'
done

# Which share of the rows' sectors of each other component a reconstruction reads: the least and the
# greatest of them, beside what the design says.
shares() {
    local name=$1 columns=$2 rows=$3 unit=$4 level=$5 due=$6
    labelled "$name." "$columns" "$rows" "$unit" "$level"
    strace -qq -s 0 -y -e trace=pread64 -o calls "$program" "$name.conf" -F "$name.d1" -w 0 > out
    tail -n 1 out | grep -qx 'status ok'
    sed -n 's/^pread64([0-9]*<.*\/\([^>]*\)>, .*, \([0-9]*\)) *= \([0-9]*\)$/\1 \2 \3/p' calls |
        awk -v name="$name" -v rows="$rows" -v bytes="$((rows * unit * 512))" -v others="$((columns - 1))" -v due="$due" '
        $2 >= 64 * 512 { read[$1] += $3 }
        END {
            least = 1e30
            for (disk in read) {
                count++
                if (read[disk] < least) least = read[disk]
                if (read[disk] > most) most = read[disk]
            }
            if (count < others) least = 0
            printf "%10s %8d %10.4f %10.4f %10.4f\n", name, others + 1, least / bytes, most / bytes, due
        }'
}

if command -v strace > /dev/null; then
    printf '%10s %8s %10s %10s %10s\n' array columns 'least read' 'most read' due
    shares level5 5 100 8 5 1
    shares fano 7 90 8 "$(printf 'T\ncyclic 7 : 0 1 3')" "$(awk 'BEGIN { print 2 / 6 }')"
    shares plane 21 100 8 "$(printf 'T\ncyclic 21 : 3 6 7 12 14')" "$(awk 'BEGIN { print 4 / 20 }')"
fi
