#!/usr/bin/env bash
# Tries what stands around the program: what new-array refuses, what array-status --check ends with, what the completion
# knows, the usage of each tool, the demo's words, and install.sh with its list and --uninstall. Loop devices are tried by
# root alone, and where the system lets them be had; a file system where there is an mkfs.ext4 and a blkid.
set -u
here=$(cd "$(dirname "$0")" && pwd)
top=$(dirname "$here")
program=$top/crates/raidctl/out/raidctl
# An installed copy.
[ -e "$top/demo.sh" ] || program=$top/../../../bin/raidctl
[ -x "$program" ] || "$top/demo.sh" > /dev/null
PATH=$PATH:/usr/sbin:/sbin

folder=$(mktemp -d "${TMPDIR:-/tmp}/raidctl.XXXXXX")
loop=
leave() {
    [ -z "$loop" ] || losetup -d "$loop"
    rm -rf "$folder"
}
trap leave EXIT
cd "$folder" || exit 1
passed=0
failed=0

# Counts whether two words are the same, and tells it if not: what it is about, what is wanted, what came.
same() {
    if [ "$2" = "$3" ]; then
        passed=$((passed + 1))
    else
        failed=$((failed + 1))
        echo "tools: $1: $3, not $2"
    fi
}

# A call ends with this exit, and has this line among those that it prints.
ends() {
    local about=$1 exit=$2 line=$3
    shift 3
    "$@" > printed 2>&1
    same "$about: the exit" "$exit" $?
    same "$about: '$line'" 1 "$(grep -cxF -- "$line" printed)"
}

# Three disks and a spare, all zero, and a configuration of them.
fresh() {
    rm -f d0 d1 d2 s0
    for disk in d0 d1 d2 s0; do
        head -c 1056768 /dev/zero > "$disk"
    done
    printf '%s\n' 'START array' '1 3 1' 'START disks' d0 d1 d2 'START spare' s0 'START layout' '1 1 1 5' > conf
}
new_array=$top/tools/new-array
array_status=$top/tools/array-status

# new-array: what stands in a kept sector, in a row, on a spare, and what blkid knows.
fresh
printf x | dd of=d1 bs=512 seek=63 conv=notrunc status=none
ends 'a kept sector' 65 "d1: something other than a label stands in sector 63" "$new_array" conf 7
fresh
printf '\n' | dd of=d2 bs=512 seek=2063 conv=notrunc status=none
ends 'a row' 65 "d2: data stand in its rows, in sector 2063" "$new_array" conf 7
same 'a row: nothing is written' 'label none' "$("$program" conf -g d0 | head -n 1)"
fresh
printf x | dd of=s0 bs=512 seek=1 conv=notrunc status=none
printf x | dd of=d0 bs=512 seek=8 conv=notrunc status=none
ends 'a spare' 65 "s0: something other than a label stands in sector 1" "$new_array" conf 7
ends 'a spare, and --force' 0 "status ok" "$new_array" conf 7 --force
same 'behind --force the spare is zero' '' "$(cmp -n 32768 s0 /dev/zero)"
same 'behind --force so is what is kept behind the label' '' "$(cmp -i 512 -n 32256 d0 /dev/zero)"
ends 'a label' 65 "d0: the label of column 0 of 3 of array 7 stands in sector 0" "$new_array" conf 8
if command -v mkfs.ext4 > none && command -v blkid > none; then
    fresh
    mkfs.ext4 -q -F -O ^has_journal d1
    ends 'a file system' 65 "d1: blkid finds ext4" "$new_array" conf 7
else
    echo 'tools: a file system is not tried'
fi
fresh
ends 'empty disks' 0 "labels written 3" "$new_array" conf 7
same 'empty disks: standard error' '' "$("$new_array" conf 7 --force 2>&1 > none)"

# array-status, by what -p finds.
if command -v python3 > none; then
    "$program" conf -i > none
    ends 'a check' 0 'checked: no stripe was found that is not in sync' "$array_status" conf --check
    printf x | dd of=d2 bs=512 seek=64 conv=notrunc status=none
    ends 'a spoiled stripe' 3 'checked: 1 stripe is not in sync' "$array_status" --check conf
    "$program" conf -P > none
    "$program" conf -f d1 > none
    ends 'a failed column' 1 'degraded: column 1 failed, and none of the others may fail' "$array_status" conf --check
    sed 's/^d0$/absent/' conf > less
    ends 'a lost array' 2 'checked: the array is lost' "$array_status" less --check
    rm d0
    ends 'a disk that is gone' 4 'raidctl: d0: no such file; names are relative to the working directory, not to CONF' "$array_status" conf --check
    fresh
    truncate -s 2M d0 d1 d2
    head -c 3M /dev/zero > d1
    ends 'a larger disk' 0 '2.0 MiB of each component are used; the largest, d1, has 3.0 MiB' "$new_array" conf 7
    if [ "$(id -u)" = 0 ] && loop=$(losetup --find --show d1 2> none); then
        sed "s|^d1$|$loop|" conf > looped
        truncate -s 100K d1
        ends 'a disk that fails as it is read' 1 'degraded: column 1 failed, and none of the others may fail' "$array_status" looped --check
        losetup -d "$loop"
    else
        echo 'tools: a disk that fails as it is read is not tried'
    fi
    loop=
else
    echo 'tools: there is no python3: array-status is not tried'
fi

# The words of a call as bash splits them, the last of which is completed.
completed() {
    COMP_WORDS=("$@")
    COMP_CWORD=$(($# - 1))
    _raidctl 2> none
    echo "${COMPREPLY[*]}"
}
if [ -e "$top/install/raidctl.bash" ]; then
    fresh
    cp conf 'my conf'
    : > script
    # shellcheck source=/dev/null
    . "$top/install/raidctl.bash"
    same 'completed: a disk' 'd0 d1 d2' "$(completed raidctl conf -f '')"
    same 'completed: a disk or spare' 'd0 d1 d2 s0' "$(completed raidctl -w 4 conf -g '')"
    same 'completed: behind =' 'script' "$(completed raidctl conf --io = sc)"
    same 'completed: a name with a blank' 'my conf' "$(completed raidctl 'my\ c')"
    same 'completed: behind a name with a blank' 'd0 d1 d2' "$(completed raidctl 'my\ conf' -F '')"
    same 'completed: an option' '--layout --limit' "$(completed raidctl conf --l | tr ' ' '\n' | sort | xargs)"
fi

# Each tool has a usage, and reads nothing for it.
for tool in "$top"/tools/*; do
    if [ -x "$tool" ] && [ ! -d "$tool" ]; then
        "$tool" --help < /dev/null > printed 2>&1
        same "$(basename "$tool") --help names itself" 1 "$(grep -cF -- "$(basename "$tool")" printed | sed 's/[1-9].*/1/')"
        same "$(basename "$tool") --help is short" 1 "$(($(wc -l < printed) < 10))"
    fi
done

# README shows the demo as it is.
if [ -e "$top/demo.sh" ]; then
    sed -n '/^    \$ cat conf$/,/^[^ ]/s/^    //p' "$top/README.md" > shown
    same "the demo, as README shows it" '' "$("$top/demo.sh" | tail -n +2 | diff - shown)"
fi

# What is installed is what the list names, and goes again.
if [ -e "$top/install.sh" ]; then
    ends 'the demo, other words' 64 'usage: ./demo.sh [--unproved]' "$top/demo.sh" --proved
    mkdir -p put/bin
    : > put/bin/other
    ends 'installing' 0 "$PWD/put/share/doc/raidctl/INSTALLED" "$top/install.sh" put
    same 'the list' "$(cd put && find . ! -type d | sed 's|^\./||' | grep -vx bin/other | sort)" "$(sort put/share/doc/raidctl/INSTALLED)"
    mv put moved
    same 'the program that is installed' "$("$program" --version)" "$(moved/bin/raidctl --version)"
    ends 'a tool that is installed' 64 'usage: new-array CONF SERIAL [--force]' moved/bin/new-array
    echo bin/older >> moved/share/doc/raidctl/INSTALLED
    : > moved/bin/older
    ends 'installing again' 0 "$PWD/moved/bin/raidctl" "$top/install.sh" moved
    same 'what is no longer installed' 'array-status conf-from-scan new-array other raidctl' "$(cd moved/bin && echo *)"
    "$top/install.sh" --uninstall moved > printed 2>&1
    same 'uninstalling: the exit' 0 $?
    same 'behind uninstalling' './bin/other' "$(cd moved && find . ! -type d)"
    same 'folders behind uninstalling' 'bin' "$(cd moved && echo *)"
    "$top/install.sh" --uninstall moved > printed 2>&1
    same 'uninstalling again: the exit' 1 $?
    if command -v systemd-analyze > none && systemd-analyze --version > none 2>&1; then
        sed "s|^ExecStart=array-status|ExecStart=/bin/true|" "$top/install/raidctl-check@.service" > raidctl-check@.service
        cp "$top/install/raidctl-check@.timer" .
        same 'the units' '' "$(systemd-analyze verify ./raidctl-check@x.timer ./raidctl-check@x.service 2>&1 | grep -F raidctl-check | grep -v "Command 'man")"
        same 'the hour' 0 "$(systemd-analyze calendar "$(sed -n 's/^OnCalendar=//p' raidctl-check@.timer)" > none 2>&1; echo $?)"
    fi
fi

echo "tools: $passed as wanted, $failed not"
[ "$failed" = 0 ]
