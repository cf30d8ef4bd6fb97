#!/usr/bin/env bash
# stopped.sh [long] [PROGRAM]: kills calls of each letter that writes labels, before each label of each of their rounds, and
# brings the array back by --adopt. -s and -p look and change nothing, -P writes the labels anew, and then every block is
# what it was, or what the killed call wrote. It kills -P --adopt itself, again and again, and puts an old copy of a component
# in its place, which -p --adopt finds. Where there is no tracer (strace), calls are killed at random.
#
# At level 5 calls of --io are killed before each of their writes; at the other levels each call behind the first and before
# the last label of each round. What isn't begun within two minutes is left out, and that is told. With `long` every call is
# killed before each of its writes, at all levels, however long that takes.
set -u
here=$(cd "$(dirname "$0")" && pwd)
top=$(dirname "$here")
long=
[ "${1-}" != long ] || { long=long; shift; }
program=$(realpath "${1:-$top/crates/raidctl/out/raidctl}")
[ -x "$program" ] || "$top/demo.sh" > /dev/null

folder=$(mktemp -d "${TMPDIR:-/tmp}/raidctl.XXXXXX")
trap 'rm -rf "$folder"' EXIT
cd "$folder" || exit 1
tracer=
! strace -o told true 2> told || tracer=strace

passed=0
failed=0
stops=0
unserved=0
left_out=0

# Counts whether two words are the same, and tells it if not: what it is about, what is wanted, what came.
same() {
    if [ "$2" = "$3" ]; then
        passed=$((passed + 1))
    else
        failed=$((failed + 1))
        echo "stopped: level $level, $1: $3, not $2"
    fi
}

# A call on the components of a folder; one whose last line is wanted; and one that is killed before its write of a number.
call() {
    (cd "$1" && shift && exec "$program" ../conf "$@" 2> ../told)
}
ends() {
    local about=$1 line=$2
    shift 2
    call "$@" > out
    same "$about: ${*:2}: the last line" "$line" "$(tail -n 1 out)"
}
kill_before() {
    local number=$1 array=$2
    shift 2
    (cd "$array" && exec strace -f -qq -o ../told -e trace=pwrite64 -e "inject=pwrite64:signal=KILL:when=$number" \
        "$program" ../conf "$@" > ../out 2> ../told)
} 2> told

# The components of one folder for those of another, and what tells whether they were changed.
put() {
    cp "$1"/* "$2"
}
sum() {
    cat "$1"/* | cksum
}

# Each block of an array in a line, with what it holds; and how the columns are shown.
blocks() {
    call "$1" --io ../all -w 0 | awk '/^block / { for (i = 0; i < $3; i++) print $2 + i, $4 }'
}
columns() {
    call "$1" -s "${@:2}" | awk '/^column/ { printf "%s%s", $4, $5 == "" ? " " : " " $5 " " }'
}

# A level: its number of columns, spares and blocks, and the lines of its design, if it has one.
level_of() {
    level=$1
    case $level in
        0) set -- 4 0 128 ;;
        1) set -- 4 1 64 ;;
        4 | 5) set -- 5 1 128 ;;
        C) set -- 5 1 80 ;;
        T) set -- 7 1 126 'cyclic 7 : 0 1 3' ;;
        D) set -- 7 0 63 'cyclic 7 : 0 1 3' ;;
    esac
    count=$1
    size=$3
    components=$(seq -f d%g 0 $((count - 1)))
    spares=
    [ "$2" = 0 ] || spares=s0
    {
        printf '%s\n' 'START array' "1 $count $2" 'START disks' $components
        [ -z "$spares" ] || printf '%s\n' 'START spare' $spares
        printf '%s\n' 'START layout' "1 1 1 $level" "${@:4}"
    } > conf
    seq 0 $((size - 1)) | awk '{ printf "0 write %d 1 %02x\n", $1, ($1 * 7 + 1) % 256 }' > first
    seq 0 $((size - 1)) | awk '{ printf "0 read %d 1\n", $1 }' > all
    printf '%s\n' '0 write 0 8 a5' '0 write 40 3 b6' > script
    mkdir made left whole
}

# Arrays of the folder `made`: new components; a labelled array, in which each block has what tells it from its neighbours;
# one without column 3; the same with a new disk in its place; and one on which column 3 is half rebuilt.
new() {
    local name
    for name in $components $spares; do
        head -c $((96 * 512)) /dev/zero > "made/$name"
    done
}
labelled() {
    new
    ends 'the first labels' 'status ok' made -I 7
    ends 'the parity' 'status ok' made -i
    ends 'the first blocks' 'status ok' made --io ../first -w 0
}
degraded() {
    labelled
    ends 'without column 3' 'status ok' made -f d3
}
replaced() {
    degraded
    head -c $((96 * 512)) /dev/zero > made/d3
}
paused() {
    labelled
    ends 'half rebuilt' 'status ok' made -F d3 --limit 10 -w 0
}

# What a call writes, a line for each write: label, map or row.
writes() {
    (cd whole && strace -f -qq -s 0 -e trace=pwrite64 -o ../trace "$program" ../conf "$@" > ../out 2> ../told)
    sed -n 's/.*, \([0-9]*\)) *= [0-9]*$/\1/p' trace | awk '{ print $1 == 0 ? "label" : $1 == 512 ? "map" : "row" }'
}

# Before which of these writes the call is killed (each; labels, and what comes behind the last of a round; or few: behind
# the first label of a round and before its last), and what the blocks are then: as before, as the call leaves them, or each
# as one or the other.
stops_of() {
    awk -v which="$1" '
        { label[NR] = $1 == "label"; rows[NR] = all; all += $1 == "row" }
        function is_stop(n) {
            if (which == "each") return 1
            if (which == "labels") return label[n] || label[n - 1]
            return label[n] && label[n - 1] && !(label[n - 2] && label[n + 1])
        }
        END { for (n = 1; n <= NR; n++) if (is_stop(n))
            print n, rows[n] == 0 ? "before" : rows[n] == all ? "after" : "either" }'
}

# The blocks of an array that came back are those that are wanted. Where a column is missing, what a stop between writes of a
# row leaves of their stripes is open: these are the blocks 0 to 7 and 40 to 43.
came_back() {
    local about=$1 wanted=$2 open=$3
    blocks left > got
    same "$about: how many blocks" "$size" "$(wc -l < got)"
    same "$about: blocks that are neither as before nor as written" '' "$(paste -d ' ' before after got | awk \
        -v wanted="$wanted" -v open="$open" '
        open && wanted == "either" && ($1 < 8 || $1 >= 40 && $1 < 44) { next }
        !($6 == $2 && wanted != "after" || $6 == $4 && wanted != "before") { printf "%s ", $1 }')"
}

# What `left` is worth behind a stop, by --adopt: what it is about, what the blocks are, whether a column is missing.
adopted() {
    local about=$1 wanted=$2 open=$3 shown held
    stops=$((stops + 1))
    call left -p > out
    case $(tail -n 1 out) in 'status lost'* | 'status label'*) unserved=$((unserved + 1)) ;; esac
    held=$(sum left)
    shown=$(columns left --adopt)
    if [ -z "$shown" ]; then
        # The device onto which column 3 was rebuilt has no label yet.
        same "$about: -s --adopt" 'status label 3 1 0 0' "$(call left -s --adopt)"
        ends "$about" 'status ok' left -f d3 --adopt
    else
        # A column that was half rebuilt has failed where the newest label isn't clean.
        case $shown in
            "$(cat columns.before)" | "$(cat columns.after)") ;;
            *) same "$about: columns" "$(sed 's/rebuilding [0-9]*/failed/' columns.before)" "$shown" ;;
        esac
        call left -p --adopt > out
        [ "$wanted" = either ] || same "$about: -p --adopt" 'parity clean' "$(grep '^parity' out)"
        same "$about: what was only looked at" "$held" "$(sum left)"
    fi
    ends "$about" 'status ok' left -P --adopt
    [ "$wanted" = either ] || same "$about: -P --adopt" 'parity rewritten 0' "$(grep '^parity' out)"
    [ -z "$shown" ] || same "$about: columns behind it" "$shown" "$(columns left)"
    came_back "$about" "$wanted" "$open"
}

# Kills a call at a time that is drawn, up to that which it takes.
kill_at_random() {
    (cd left && exec "$program" ../conf "$@" > ../out 2> ../told) &
    sleep "$(awk -v us=$((RANDOM % took)) 'BEGIN { printf "%.6f", us / 1000000 }')"
    kill -KILL $!
    wait $!
} 2> told

# Kills a call at each of its stops, and brings the array back: the array before it, what the blocks may be where the call
# wrote (`loose`: each as before or as written), and its words.
kill_each() {
    local array=$1 loose=$2 which=few open= number wanted begin
    shift 2
    is_time || return 0
    "$array"
    case $array in degraded | replaced | paused) open=open ;; esac
    case $long:$level:$* in long:* | :5:--io*) which=each ;; :5:*) which=labels ;; esac
    columns made > columns.before
    put made whole
    blocks whole > before
    put made whole
    begin=$(date +%s%N)
    if [ -n "$tracer" ]; then writes "$@" > written; else call whole "$@" > out; fi
    took=$((($(date +%s%N) - begin) / 1000))
    same "$*: the last line" 'status ok' "$(tail -n 1 out)"
    columns whole > columns.after
    blocks whole > after
    if [ -z "$tracer" ]; then
        for number in 1 2 3 4 5; do
            put made left
            kill_at_random "$@"
            adopted "$*, at random" either "$open"
        done
        return
    fi
    while read -r number wanted; do
        [ -z "$loose" ] || [ "$wanted" = before ] || wanted=either
        put made left
        kill_before "$number" left "$@"
        adopted "$array, $*, before write $number" "$wanted" "$open"
    done < <(stops_of "$which" < written)
}

# Whether there is time for one call more.
is_time() {
    [ -n "$long" ] || [ "$SECONDS" -lt 110 ] || { left_out=$((left_out + 1)); return 1; }
}

# -I that was killed is given again. Behind its first label and before its last the array is refused, with --adopt too.
kill_labels() {
    local array=$1 serial=$2 number held
    is_time || return 0
    "$array"
    put made whole
    blocks whole > before
    for number in $(seq 1 "$count"); do
        put made left
        kill_before "$number" left -I "$serial"
        held=$(sum left)
        call left -s --adopt > out
        [ "$number" = 1 ] || same "$array, -I $serial, before label $number: -s --adopt" 'status label' "$(cut -d ' ' -f 1-2 out)"
        same "$array, -I $serial, before label $number: what was only looked at" "$held" "$(sum left)"
        ends "$array, before label $number" 'status ok' left -I "$serial"
        [ "$array" = new ] || ends "$array, before label $number" 'status ok' left -p
        blocks left > got
        same "$array, -I $serial, before label $number: blocks" '' "$(cmp before got)"
    done
}

# An array that was killed in the first round of a call, and then before each write of -P --adopt, one after another.
kill_adopting() {
    local first number last=2
    is_time || return 0
    case $long:$level in long:* | :5) last=$count ;; esac
    labelled
    columns made > columns.before
    cp columns.before columns.after
    put made whole
    blocks whole > before
    cp before after
    for first in $(seq 2 "$last"); do
        put made left
        kill_before "$first" left --io ../script -w 0
        for number in $(seq 1 $((2 * count))); do
            kill_before "$number" left -P --adopt
        done
        adopted "-P --adopt, killed $((2 * count)) times" before ''
    done
}

# A component that is put back from a copy of before a call is one counter behind, and named: only the parity tells.
put_back() {
    local held
    is_time || return 0
    labelled
    put made whole
    ends 'a call that the copy lacks' 'status ok' whole --io ../script -w 0 --map
    put whole left
    blocks whole > after
    cp made/d1 left/d1
    held=$(sum left)
    same 'an old copy: -s' 'column 1 d1 failed' "$(call left -s | grep '^column 1')"
    same 'an old copy: -s --adopt' 'column 1 d1 optimal' "$(call left -s --adopt | grep '^column 1')"
    call left -p --adopt > out
    same 'an old copy: -p --adopt' 'status parity' "$(tail -n 1 out | cut -d ' ' -f 1-2)"
    same 'an old copy: what was only looked at' "$held" "$(sum left)"
    ends 'an old copy' 'status ok' left -R d1
    blocks left > got
    same 'an old copy: blocks behind -R' '' "$(cmp after got)"
}

# All that is tried at a level.
try_level() {
    level_of "$1"
    kill_each labelled '' --io ../script -w 0
    kill_each labelled '' --io ../script -w 0 --map
    kill_each labelled '' -i
    kill_each labelled '' -P
    if [ -n "$tracer" ]; then
        kill_labels new 7
        kill_labels labelled 8
        kill_adopting
    fi
    [ "$level" != 0 ] || return 0
    put_back
    kill_each degraded '' --io ../script -w 0
    kill_each labelled '' -f d3
    kill_each labelled '' -F d3 -w 0
    kill_each labelled '' -F d3 -w 0 --map
    kill_each labelled loose -F d3 --io ../script -w 0
    kill_each replaced '' -R d3 -w 0
    [ -n "$spares" ] || return 0
    kill_each labelled '' -F d3 --limit 10 -w 0
    kill_each paused '' --resume -w 0
    kill_each paused '' --io ../script -w 0
}

# The levels beside one another, each in a folder of its own.
for level in 5 0 1 4 C T D; do
    mkdir "$level"
    (cd "$level" && try_level "$level" && echo "$passed $failed $stops $unserved $left_out" > counts) &
done
wait
read -r passed failed stops unserved left_out tried < <(cat ./*/counts | awk '
    { for (n = 1; n <= 5; n++) sum[n] += $n }
    END { print sum[1] + 0, sum[2] + 0, sum[3] + 0, sum[4] + 0, sum[5] + 0, NR }')
[ -n "$tracer" ] || echo 'stopped: there is no tracer (strace): calls were killed at random'
[ "$left_out" = 0 ] || echo "stopped: $left_out calls were left out, since two minutes were over"
echo "stopped: $passed as wanted, $failed not; of $stops stops $unserved are lost or refused without --adopt"
[ "$failed" = 0 ] && [ "$tried" = 7 ]
