#!/usr/bin/env bash
# Kills a long call that keeps a parity map (--io --map) at twenty places, and looks at what the next call does with what is
# left. That goes on with a copy of the components as they are, behind which -p has to find all stripes in sync; and with a
# copy of which every stripe was made not to fit by hand, behind which -p has to find as many stripes in sync as lie in the
# regions that -m told, and no more: these were swept, and nothing else was.
set -u
here=$(cd "$(dirname "$0")" && pwd)
top=$(dirname "$here")
program=$top/crates/raidctl/out/raidctl
# An installed copy.
[ -e "$top/demo.sh" ] || program=$top/../../../bin/raidctl
[ -x "$program" ] || "$top/demo.sh" > /dev/null

folder=$(mktemp -d "${TMPDIR:-/tmp}/raidctl.XXXXXX")
trap 'rm -rf "$folder"' EXIT
cd "$folder" || exit 1
mkdir first left soiled

# 8,000 stripes of units of one sector: a region has three of them.
stripes=8000
region=3
printf '%s\n' 'START array' '1 5 0' 'START disks' d0 d1 d2 d3 d4 'START layout' '1 1 1 5' > conf
for disk in d0 d1 d2 d3 d4; do
    head -c $((64 * 512)) /dev/zero > "first/$disk"
    head -c $((stripes * 512)) /dev/urandom >> "first/$disk"
done
: > empty

# Writes of one to four blocks by four clients, into twenty stripes that are far from one another.
awk 'BEGIN {
    for (i = 0; i < 40000; i++) printf "%d write %d %d %02x\n", i % 4, int(i / 7) % 20 * 1600, 1 + i % 4, i % 256
}' > script

# A call on the components of a folder.
call() {
    (cd "$1" && shift && exec "$program" ../conf "$@")
}

passed=0
failed=0

# Counts whether two words are the same, and tells it if not: what it is about, what is wanted, what came.
same() {
    if [ "$2" = "$3" ]; then
        passed=$((passed + 1))
    else
        failed=$((failed + 1))
        echo "killed: $1: $3, not $2"
    fi
}

# Puts the components of one folder into another.
put() {
    cp "$1"/d0 "$1"/d1 "$1"/d2 "$1"/d3 "$1"/d4 "$2"
}

call first -I 1001 > out
call first -i > out
same 'the first array: the last line' 'status ok' "$(tail -n 1 out)"

# How long the call takes, in microseconds.
put first left
begin=$(date +%s%N)
call left --io ../script --map > out
end=$(date +%s%N)
same 'a call that nothing kills: the last line' 'status ok' "$(tail -n 1 out)"
took=$(((end - begin) / 1000))

# Starts the call on the components of `left`, kills it after so many microseconds, and answers how it ended.
killed() {
    (cd left && exec "$program" ../conf --io ../script --map > ../out) &
    local pid=$!
    sleep "$(awk -v us="$1" 'BEGIN { printf "%.6f", us / 1000000 }')"
    kill -KILL "$pid"
    wait "$pid"
}

marked_ones=0
place=0
tries=0
while [ "$place" -lt 20 ] && [ "$tries" -lt 200 ]; do
    tries=$((tries + 1))
    put first left
    # A call that has ended was not killed, and one that was killed in a round of labels leaves some of them stale, which
    # --adopt would take in: both are tried again, the first of them earlier.
    if killed $((took * (place + 1) / 21)) 2> told; then
        took=$((took * 9 / 10))
        continue
    fi
    call left -s > out
    [ "$(grep -c ' optimal$' out)" = 5 ] || continue
    place=$((place + 1))
    dirty=$(grep '^parity' out)
    marked=$(call left -m | sed -n 's/^map regions .* marked //p; s/^map none$/0/p')
    if [ "$marked" -gt 0 ]; then
        marked_ones=$((marked_ones + 1))
        same "place $place: $marked marks, by -s" 'parity dirty' "$dirty"
    else
        same "place $place: no mark, by -s" 'parity clean' "$dirty"
    fi
    [ "$marked" -le 20 ] || same "place $place: how many regions are marked" 'at most 20' "$marked"

    put left soiled
    dd if=/dev/urandom of=soiled/d0 bs=512 seek=64 count="$stripes" conv=notrunc status=none
    for array in left soiled; do
        call "$array" --io ../empty > out
        same "place $place, $array: the next call's last line" 'status ok' "$(tail -n 1 out)"
        same "place $place, $array: marks behind the next call" 0 "$(call "$array" -m | sed -n 's/^map regions .* marked //p; s/^map none$/0/p')"
    done
    same "place $place: -p behind the next call" 'parity clean status ok' "$(call left -p | tr '\n' ' ' | sed 's/ $//')"
    same "place $place: stripes not in sync but for those of $marked regions" "status parity $((stripes - marked * region))" "$(call soiled -p 2> told | tail -n 1)"
done
same 'places' 20 "$place"
[ "$marked_ones" -ge 10 ] || same 'places with marks' '10 or more' "$marked_ones"

echo "killed: $passed as wanted, $failed not; $marked_ones of $place places with marks"
[ "$failed" = 0 ]
