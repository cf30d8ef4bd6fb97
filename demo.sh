#!/usr/bin/env bash
# Runs one write and one read on a new array of three components, and shows what the components then hold.
#
#     ./demo.sh [--unproved]
#
# Where the program isn't built yet, the sources are first compiled and run unproved, which takes some two minutes. Then the
# program is proved and built, and the same is run by it. With --unproved the demo ends before the proof.
set -eu
top=$(cd "$(dirname "$0")" && pwd)
# rt run and rt ci put it there once it is proved; nothing else does.
program=$top/crates/raidctl/out/raidctl
case "$#${1:-}" in
0) unproved= ;;
1--unproved) unproved=yes ;;
*)
    echo "usage: ./demo.sh [--unproved]" >&2
    exit 64
    ;;
esac

folder=$(mktemp -d "${TMPDIR:-/tmp}/raidctl.XXXXXX")
trap 'rm -rf "$folder"' EXIT
cd "$folder"
cat > script <<'END'
0 write 0 1 a5      # client 0 fills one block, from block 0 on, with a5
0 read 0 1          # and reads it back
END

# A configuration of three disks, each named with this in front.
configuration() {
    cat <<END
START array
1 3 0       # three columns, no spare
START disks
${1}d0
${1}d1
${1}d2
START layout
1 1 1 5     # units of one sector, level 5
END
}

# A new array of three components of zeros in this folder.
array() {
    configuration '' > conf
    for disk in d0 d1 d2; do
        head -c 65536 /dev/zero > "$disk"
    done
}

needs_kit() {
    if ! command -v rt > /dev/null; then
        echo "raidctl isn't built yet, and there is no rt on the path: the Rattle kit proves and builds it (README.md)." >&2
        exit 1
    fi
}

show_texts() {
    for text in conf script; do
        echo "\$ cat $text"
        cat "$text"
    done
    echo '$ raidctl conf --io script'
}

# The sectors that aren't zero, each with the byte that fills it.
show_disks() {
    for disk in d0 d1 d2; do
        echo "$disk: 128 sectors, all zero but:"
        od -An -v -t x1 -w512 "$disk" | awk '
            { gsub(/ /, ""); first = substr($0, 1, 2); filled = $0; gsub(first, "", filled) }
            $0 !~ /^0+$/ { print "  sector " NR - 1 (filled == "" ? " filled with " first : " holds " $0); some = 1 }
            END { if (!some) print "  (none)" }'
    done
}

# rt try compiles the sources and runs them in a folder of its own, so the disks have their whole names in that
# configuration. It keeps nothing.
try_unproved() {
    needs_kit
    array
    configuration "$folder/" > whole
    echo "First UNPROVED: rt try compiles the sources and runs them, and proves nothing. This takes some two minutes."
    if ! (cd "$top/crates/raidctl" && rt try --data "conf=$folder/whole" --data "script=$folder/script" -- conf --io script) \
        > tried 2> said; then
        echo "rt try gave no result; what it said:" >&2
        tail -n 20 said >&2
        return 1
    fi
    show_texts
    cat tried
    show_disks
    echo "So far NOTHING IS PROVED of what ran."
}

# The crates that one crate stands on, each behind those that it needs, and at last itself: the order in which rt proves.
crates_below() {
    awk -v wanted="$1" '
        function add(name, needs, count, i) {
            if (name in done || !(name in line)) return
            done[name] = 1
            count = split(line[name], needs, " ")
            for (i = 1; i <= count; i++) add(needs[i])
            print name
        }
        /^[a-z]/ { head = $0; sub(/:.*/, "", head); split(head, word, " "); rest = $0; sub(/^[^:]*:/, "", rest); line[word[1]] = rest }
        END { add(wanted) }' "$top/crates.txt"
}

# rt builds a program as it runs it, here on an array of its own.
build() {
    needs_kit
    crates_below raidctl > order
    echo "Now the proof: raidctl is proved crate by crate, and then built. It takes an hour or more."
    echo "All sources are looked through first, which shows nothing for some minutes."
    array
    configuration "$folder/" > whole
    # Each line of the check that names a function names its crate too: show each crate once.
    (cd "$top/crates/raidctl" && rt run -- "$folder/whole" --io "$folder/script" 2>&1) | tee log | awk '
        FNR == NR { place[$1] = ++many; next }
        $1 ~ /^(fn|enum|struct|impl|trait|const|mod)$/ && split($2, part, "::") > 1 && (part[1] in place) && !(part[1] in seen) {
            seen[part[1]] = 1
            print "proving " part[1] ", " place[part[1]] " of " many " crates"
            fflush()
        }' order - || true
    if [ ! -x "$program" ]; then
        echo "raidctl could not be built; what the prover said:" >&2
        tail -n 20 log >&2
        exit 1
    fi
}

if [ -n "$unproved" ]; then
    try_unproved
    exit
fi
if [ ! -x "$program" ]; then
    try_unproved || true
    build
fi
array
echo "PROVED, in a folder of its own, which is removed again:"
show_texts
"$program" conf --io script
show_disks
