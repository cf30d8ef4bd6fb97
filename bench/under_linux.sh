#!/usr/bin/env bash
# Whether a Linux kernel reads, scrubs and writes the program's images, as docs/LINUX.md has it: at each
# level that md has, an array is written by the program, then read, scrubbed, read without a column and
# written by md in a virtual machine, and read and checked by the program again.
#
#     bench/under_linux.sh KERNEL MODULES
#
# KERNEL is a kernel's image, MODULES its folder lib/modules/VERSION. It wants qemu-system-x86_64,
# busybox (static), mdadm, dmsetup, modprobe, cpio and python3. The last line is `all the same`, or it
# ends with 1.
set -eu
kernel=$(realpath "$1")
modules=$(realpath "$2")
raidctl=${RAIDCTL:-$(realpath "$(dirname "$0")/../crates/raidctl/out/raidctl")}
room=$(mktemp -d)
console=${CONSOLE:-$room/console}
trap 'rm -rf "$room"' EXIT
mkdir "$room/images"
cd "$room/images"

unit=16
rows=32

# Level, columns, data columns' worth of blocks in two rows, md's words.
levels() {
    cat <<'END'
0 4 8 --level=0
1 4 4 --level=10 --layout=n2
4 5 8 --level=4
5 5 8 --level=5 --layout=left-symmetric
C 5 5 --level=10 --layout=o2
END
}

# The blocks of a level and turn, each of a word of its own.
blocks() {
    python3 -c '
import sys
turn, count = int(sys.argv[1]), int(sys.argv[2])
sys.stdout.buffer.write(b"".join((((b + 1) * 2654435761 + turn) % 2**32).to_bytes(4, "big") * 128 for b in range(count)))
' "$1" "$2"
}

while read -r level columns pair words; do
    mkdir "level$level"
    (
        cd "level$level"
        count=$((pair * unit * rows / 2))
        echo "$columns $count $words" > how
        {
            printf 'START array\n1 %d 0\nSTART disks\n' "$columns"
            for i in $(seq 0 $((columns - 1))); do echo "d$i"; done
            printf 'START layout\n%d 1 1 %s\n' "$unit" "$level"
        } > conf
        for i in $(seq 0 $((columns - 1))); do
            head -c $(((64 + rows * unit) * 512)) /dev/zero > "d$i"
        done
        blocks 0 "$count" > plain
        blocks 1 "$count" > next
        python3 -c '
data = open("plain", "rb").read()
for b in range(len(data) // 512):
    print("0 write", b, 1, data[512 * b:512 * b + 4].hex())
' > script
        "$raidctl" conf --io script > replies
    )
done < <(levels)
tar cf "$room/in.img" .
truncate -s %1M "$room/in.img"
truncate -s 64M "$room/out.img"

# The machine: busybox, mdadm and dmsetup with their libraries, the modules, and what it does.
mkdir -p "$room/root"/{bin,dev,proc,sys,mnt,modules,etc}
cd "$room/root"
cp "$(command -v busybox)" bin/busybox
for tool in mdadm dmsetup; do
    cp "$(command -v $tool)" bin/
    ldd "$(command -v $tool)" | grep -o '/[^ ]*' | while read -r library; do
        mkdir -p ".$(dirname "$library")"
        cp -L "$library" ".$library"
    done
done
version=$(basename "$modules")
top=$(dirname "$(dirname "$(dirname "$modules")")")
number=10
for module in loop dm-mod raid0 raid10 raid456 virtio_pci virtio_blk; do
    modprobe -d "$top" -S "$version" --show-depends "$module" | awk '$1 == "insmod" { print $2 }' | while read -r file; do
        name=$(basename "$file")
        if ! ls modules | grep -q -- "-$name\$"; then
            cp "$file" "modules/$number-$(ls modules | wc -l | awk '{ printf "%03d", $1 }')-$name"
        fi
    done
done
cat > init <<'END'
#!/bin/busybox sh
/bin/busybox --install -s /bin
export PATH=/bin DM_DISABLE_UDEV=1
mount -t proc proc /proc
mount -t sysfs sys /sys
mount -t devtmpfs dev /dev
for module in $(ls /modules | sort); do insmod /modules/$module 2>/dev/null; done
mount -t tmpfs tmp /mnt
cd /mnt
tar xf /dev/vda

# Each component's rows behind a loop device, joined with a scratch piece for md's superblock.
join() {
    devices=
    for i in $(seq 0 $(($1 - 1))); do
        head -c 1048576 /dev/zero > scratch$i
        rows=$(losetup -f); losetup -o 32768 $rows d$i
        scratch=$(losetup -f); losetup $scratch scratch$i
        a=$(blockdev --getsz $rows)
        b=$(blockdev --getsz $scratch)
        printf '0 %d linear %s 0\n%d %d linear %s 0\n' $a $rows $a $b $scratch | dmsetup create raid$i
        devices="$devices /dev/mapper/raid$i"
    done
}

# Takes all apart again.
part() {
    mdadm --stop /dev/md0 2>/dev/null
    for i in $(seq 0 $(($1 - 1))); do dmsetup remove raid$i; done
    for l in $(losetup -a | cut -d: -f1); do losetup -d $l; done
}

make() {
    yes | mdadm --create /dev/md0 --run $clean --metadata=1.0 $words --chunk=8 --raid-devices=$columns "$@" >make.log 2>&1 || cat make.log
}

same() {
    if dd if=/dev/md0 bs=512 count=$count 2>/dev/null | cmp -s - $2; then
        echo "SAW $level $1 same"
    else
        echo "SAW $level $1 differs"
    fi
}

for folder in level*; do
    cd /mnt/$folder
    level=${folder#level}
    read -r columns count words < how
    clean="--assume-clean --bitmap=none --size=256"
    [ $level = 0 ] && clean=
    join $columns
    make $devices
    same read plain
    if [ $level != 0 ]; then
        echo check > /sys/block/md0/md/sync_action
        while [ "$(cat /sys/block/md0/md/sync_action 2>/dev/null || echo idle)" != idle ]; do sleep 1; done
        echo "SAW $level scrub $(cat /sys/block/md0/md/mismatch_cnt)"
        mdadm --stop /dev/md0 2>/dev/null
        make $(echo $devices | sed 's,/dev/mapper/raid1,missing,')
        same degraded plain
        mdadm --stop /dev/md0 2>/dev/null
        make $devices
    fi
    [ -b /dev/md0 ] && dd if=next of=/dev/md0 bs=512 conv=notrunc,fsync 2>/dev/null
    same written next
    part $columns
    rm -f scratch*
done
cd /mnt
tar cf /dev/vdb .
echo "SAW end"
sync
poweroff -f
END
chmod +x init
find . | cpio -o -H newc --quiet | gzip > "$room/initrd"
timeout 1800 qemu-system-x86_64 -m 1024 -nographic -no-reboot -kernel "$kernel" -initrd "$room/initrd" \
    -append "console=ttyS0 panic=-1 quiet" -drive "file=$room/in.img,if=virtio,format=raw" \
    -drive "file=$room/out.img,if=virtio,format=raw" < /dev/null > "$console" 2>&1 || true
grep -a -o 'SAW .*' "$console" | tr -d '\r' | sed 's/^SAW //' | tee "$room/saw"

# What md wrote is in order and reads back by the program.
mkdir "$room/back"
cd "$room/back"
tar xf "$room/out.img"
while read -r level columns pair words; do
    (
        cd "level$level"
        count=$((pair * unit * rows / 2))
        if [ "$level" != 0 ]; then echo "$level parity $("$raidctl" conf -p | tail -1)"; fi
        awk -v count="$count" 'BEGIN { for (b = 0; b < count; b += 64) print "0 read", b, 64 }' > script
        "$raidctl" conf --io script > replies
        if python3 -c '
import sys
data = b""
for line in open("replies"):
    words = line.split()
    if words[0] == "block":
        word = bytes.fromhex(words[3])
        data += word * (512 // len(word)) * int(words[2])
sys.exit(data != open("next", "rb").read())
'; then echo "$level back same"; else echo "$level back differs"; fi
    )
done < <(levels) | tee "$room/after"
if [ "$(grep -c ' same$' "$room/saw")" = 14 ] && [ "$(grep -c ' scrub 0$' "$room/saw")" = 4 ] &&
    [ "$(grep -c ' same$' "$room/after")" = 5 ] && [ "$(grep -c ' parity status ok$' "$room/after")" = 4 ]; then
    echo "all the same"
else
    echo "something differs"
    exit 1
fi
