#!/usr/bin/env bash
# Tries what no example's images show: one file under two names, a call beside another one, files that may only be read, a
# block device, a standard output that fails, and the help. Another user and a loop device are tried by root alone, and
# where the system lets them be had.
set -u
here=$(cd "$(dirname "$0")" && pwd)
top=$(dirname "$here")
program=$top/crates/raidctl/out/raidctl
# An installed copy.
[ -e "$top/demo.sh" ] || program=$top/../../../bin/raidctl
[ -x "$program" ] || "$top/demo.sh" > /dev/null

folder=$(mktemp -d "${TMPDIR:-/tmp}/raidctl.XXXXXX")
loop=
leave() {
    [ -z "$loop" ] || losetup -d "$loop"
    rm -rf "$folder"
}
trap leave EXIT
# Another user has to find the program and the files.
chmod 755 "$folder"
install -m 755 "$program" "$folder/raidctl"
cd "$folder" || exit 1
passed=0
failed=0

# Counts whether two words are the same, and tells it: what it is about, what is wanted, what came.
same() {
    if [ "$2" = "$3" ]; then
        passed=$((passed + 1))
    else
        failed=$((failed + 1))
        echo "real_files: $1: $3, not $2"
    fi
}

# A call ends with this exit, this last line, and these words somewhere on standard error, or nothing there.
ends() {
    local about=$1 exit=$2 line=$3 words=$4
    shift 4
    "$@" > printed 2> told
    same "$about: the exit" "$exit" $?
    same "$about: the last line" "$line" "$(tail -n 1 printed)"
    if [ -n "$words" ]; then
        same "$about: '$words' on standard error" 1 "$(grep -cF -- "$words" told)"
    else
        same "$about: standard error" '' "$(cat told)"
    fi
}

# A configuration of three disks, and three components of zeros.
array() {
    printf '%s\n' 'START array' '1 3 0' 'START disks' "$1" "$2" "$3" 'START layout' '1 1 1 5' > conf
}
for disk in d0 d1 d2; do
    head -c 65536 /dev/zero > "$disk"
done

# One file, one component.
ln d0 hard
ln -s d0 soft
for name in hard soft ./d0; do
    array d0 "$name" d2
    ends "d0 and $name" 5 'status bay' "$name: in use by another call, or named twice" ./raidctl conf -i
done
array d0 d1 d2
ends 'first labels' 0 'status ok' '' ./raidctl conf -I 7
ends 'parity' 0 'status ok' '' ./raidctl conf -i

# A call beside a long one, once that has its components.
./raidctl conf --sweep 1 --clients 16 --ops 2048 > long 2>&1 &
for _ in {1..100}; do
    ! grep -q ":$(stat -c %i d0) " /proc/locks 2> none || break
    sleep 0.01
done
ends 'a call beside a long one' 5 'status bay' 'd0: in use by another call, or named twice' ./raidctl conf -P
ends 'looking beside a long one' 5 'status bay' 'd0: in use by another call, or named twice' ./raidctl conf -s
wait $!
same 'the long call: the exit' 0 $?
ends 'behind both' 0 'status ok' '' ./raidctl conf -p

# An array that isn't clean and lacks a column is warned of. Behind labels that are older than the newest, as a call leaves
# them that is killed as it writes some, the warning names the call by which to begin; so does the sentence of a lost array.
# A call that has written labels doesn't: what it left out isn't named any more.
doubt="wasn't closed in order, and lacks a column"
begin='begin with raidctl conf -s --adopt'
ends 'first labels, not clean' 0 'status ok' '' ./raidctl conf -I 7
ends 'not clean' 0 'status ok' '' ./raidctl conf -s
ends 'not clean, a column failed' 0 'status ok' '' ./raidctl conf -f d1
ends 'not clean, without a column' 0 'status ok' "$doubt" ./raidctl conf -s
same 'a column that no label names' 0 "$(grep -cF "$begin" told)"
ends 'first labels again' 0 'status ok' '' ./raidctl conf -I 7
printf '\2' | dd of=d0 bs=1 seek=16 conv=notrunc status=none
ends 'two older labels' 0 'status ok' "$doubt" ./raidctl conf -s
same 'two older labels that are named' 1 "$(grep -cF "$begin" told)"
ends 'two older labels, lost' 8 'status lost 1 2 0' "$begin" ./raidctl conf --io /dev/null
ends 'two older labels, adopted' 0 'status ok' '' ./raidctl conf -s --adopt
ends 'two older labels, written anew' 0 'status ok' '' ./raidctl conf -P --adopt
cp d1 old
ends 'further rounds' 0 'status ok' '' ./raidctl conf -i
cp old d1
for disk in d0 d2; do
    printf '\0' | dd of="$disk" bs=1 seek=40 conv=notrunc status=none
done
ends 'one older label' 0 'status ok' "$begin" ./raidctl conf -p
ends 'one older label, left out' 0 'status ok' "$doubt" ./raidctl conf --io /dev/null
same 'a column that was left out' 0 "$(grep -cF "$begin" told)"
ends 'a column that was left out' 0 'status ok' '' ./raidctl conf -R d1

# The help, and a standard output that fails.
same 'the first line of the help' 'usage: raidctl CONF ACTION [OPTION ..]' "$(./raidctl --help | head -n 1)"
same 'lines of the help above 80 columns' 0 "$(./raidctl conf -s -h | awk 'length > 80' | wc -l)"
same 'the version' "raidctl 0.1 (Nirkwafo)" "$(./raidctl -V | cut -d, -f1)"
ends 'the help' 0 'why it didn'"'"'t; the exit number is 0 or that of the status.' '' ./raidctl --help
if [ -c /dev/full ]; then
    ./raidctl --help > /dev/full 2> told
    same 'the help on a full device: the exit' 7 $?
    ./raidctl conf -s > /dev/full 2> told
    same 'a call on a full device: the exit' 7 $?
    same 'a call on a full device' 'raidctl: standard output: No space left on device (os error 28)' "$(cat told)"
fi

# Looking needs no writing.
if [ "$(id -u)" = 0 ] && command -v setpriv > none; then
    nobody="setpriv --reuid=65534 --regid=65534 --clear-groups ./raidctl"
    chmod 444 d0 d1 d2
    for words in -s -p -G '-g d0'; do
        # The words are split on purpose.
        # shellcheck disable=SC2086
        ends "$words by another user" 0 'status ok' '' $nobody conf $words
    done
    # shellcheck disable=SC2086
    ends '-i by another user' 5 'status bay' 'd0: Permission denied' $nobody conf -i
    chmod 644 d0 d1 d2
else
    echo 'real_files: another user is not tried'
fi
if [ "$(id -u)" = 0 ] && loop=$(losetup --find --show d1 2> none); then
    array d0 "$loop" d2
    printf '0 write 8 3 a5\n' > script
    for words in -s -p -i '--io script'; do
        # shellcheck disable=SC2086
        ends "$words on a loop device" 0 'status ok' '' ./raidctl conf $words
    done
    losetup -d "$loop"
    loop=
    array d0 d1 d2
    ends 'behind the loop device' 0 'status ok' '' ./raidctl conf -p
else
    loop=
    echo 'real_files: a loop device is not tried'
fi

echo "real_files: $passed as wanted, $failed not"
[ "$failed" = 0 ]
