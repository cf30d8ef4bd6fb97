#!/usr/bin/env bash
# Runs each example in a folder of its own, on images of zeros that it makes, and compares what is printed with what is
# wanted. An example has the words of a call (args, one a line) or several calls (session), the texts that they name, the
# images with their sectors, and the output. Then it makes the pictures of docs/pictures from examples, compares them too,
# and what tools/array-status tells of two arrays, walks through docs/ADMIN.md, and tries what images don't show.
set -eu
here=$(cd "$(dirname "$0")" && pwd)
top=$(dirname "$here")
program=$top/crates/raidctl/out/raidctl
# An installed copy.
[ -e "$top/demo.sh" ] || program=$top/../../../bin/raidctl
[ -x "$program" ] || "$top/demo.sh" > /dev/null

# A call of a session: its words, what it prints, and its exit number where that isn't 0.
raidctl() {
    echo "\$ raidctl $*"
    "$program" "$@" || echo "exit $?"
}

# Counts whether what was made is what is wanted, and tells it: a name, what is wanted, what was made.
compare() {
    if cmp -s "$2" "$3"; then
        passed=$((passed + 1))
        echo "$1: as wanted"
    else
        failed=$((failed + 1))
        echo "$1: not as wanted:"
        diff "$2" "$3" || true
    fi
}

folder=$(mktemp -d "${TMPDIR:-/tmp}/raidctl.XXXXXX")
trap 'rm -rf "$folder"' EXIT
passed=0
failed=0
for example in "$here"/*/; do
    name=$(basename "$example")
    cp -r "$example" "$folder/$name"
    cd "$folder/$name"
    while read -r image sectors; do
        head -c $((sectors * 512)) /dev/zero > "$image"
    done < images
    if [ -e session ]; then
        . ./session > printed
    else
        mapfile -t words < args
        "$program" "${words[@]}" > printed || true
    fi
    compare "$name" output printed
done

# A picture: its name, and the words that make it.
picture() {
    local name=$1
    shift
    "$@" > "$folder/$name.svg" || true
    compare "$name.svg" "$top/docs/pictures/$name.svg" "$folder/$name.svg"
}

if command -v python3 > /dev/null; then
    picture declustered "$top/tools/layout-picture" "$here/declustered/conf"
    picture spare_places "$top/tools/layout-picture" "$here/spare_places/conf"
    for name in declustered spare_places; do
        picture "$name" "$top/tools/layout-picture" "$here/$name/conf" - < <("$program" "$here/$name/conf" --layout)
    done
    picture large "$top/tools/graph-picture" "$here/own_graphs/graphs" large --of "$here/own_graphs/conf" 0
    picture eager "$top/tools/graph-picture" "$here/own_graphs/graphs" eager --of "$here/own_graphs/conf" 0
    cd "$folder/traced"
    picture trace "$top/tools/trace-picture" conf --io script < printed
    for name in labels into_spare_places; do
        cd "$folder/$name"
        "$top/tools/array-status" conf > told || true
        compare "$name, told by array-status" status told
    done
else
    echo "there is no python3: the pictures aren't made, and array-status isn't tried"
fi

for script in admin_walk real_files killed stopped tools designs; do
    if "$here/$script.sh"; then
        passed=$((passed + 1))
    else
        failed=$((failed + 1))
    fi
done
echo "$passed passed, $failed failed"
[ "$failed" = 0 ]
