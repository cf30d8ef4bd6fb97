# What the measurements share, sourced by them: the program, a folder of their own, arrays, and times. Each time is the least
# of its rounds.
top=$(cd "$(dirname "${BASH_SOURCE[0]}")/.." && pwd)
program=${PROGRAM:-$top/crates/raidctl/out/raidctl}
[ -x "$program" ] || "$top/demo.sh" > /dev/null

folder=$(mktemp -d "${TMPDIR:-/tmp}/raidctl.XXXXXX")
trap 'rm -rf "$folder"' EXIT
cd "$folder"

# A configuration of five components with units of so many sectors, and images of so many stripes.
array() {
    printf 'START array\n1 5 0\nSTART disks\n%sd0\n%sd1\n%sd2\n%sd3\n%sd4\nSTART layout\n%s 1 1 5\n' "$1" "$1" "$1" "$1" "$1" "$2" > "$1conf"
    for disk in d0 d1 d2 d3 d4; do
        head -c $((512 * (64 + $2 * $3))) /dev/zero > "$1$disk"
    done
}

# Copies of files, as NAME.ROUND. Where a program's pages lie in memory weighs a third of its time and more, so each round runs
# copies of its own, and the least of the rounds is of as many places.
copies() {
    local round=$1 file
    shift
    for file in "$@"; do cp "$file" "$(basename "$file").$round"; done
}

# The processors that there are, as a list and one by one. Where taskset isn't there, the system chooses.
allowed=$(taskset -cp $$ 2> /dev/null | sed 's/.*: //')
processors=$(tr ',' '\n' <<< "${allowed:-0}" | while IFS=- read -r from to; do seq "$from" "${to:-$from}"; done)

# What runs from here on runs on these processors alone.
on() {
    if [ -n "$allowed" ]; then taskset -cp "$1" $$ > /dev/null; fi
}

declare -A least

# Runs a command, and notes its nanoseconds under a name where they are the least so far.
timed() {
    local name=$1 begin end
    shift
    begin=$(date +%s%N)
    "$@" > out
    end=$(date +%s%N)
    if [ -z "${least[$name]:-}" ] || [ $((end - begin)) -lt "${least[$name]}" ]; then least[$name]=$((end - begin)); fi
}

# The same of a run of the program, which has to end well.
run() {
    local name=$1
    shift
    timed "$name" "$program" "$@"
    tail -n 1 out | grep -qx 'status ok'
}
