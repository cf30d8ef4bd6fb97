#!/usr/bin/env bash
# Walks through docs/ADMIN.md: runs each command that stands there, in the order of the page and from an empty folder, and
# compares what it prints on standard output with the lines that stand under it. It wants python3, for tools/array-status.
set -u
walk_here=$(cd "$(dirname "$0")" && pwd)
walk_top=$(dirname "$walk_here")
walk_page=$walk_top/docs/ADMIN.md
walk_program=$walk_top/crates/raidctl/out/raidctl
# An installed copy.
[ -e "$walk_top/demo.sh" ] || walk_program=$walk_top/../../../bin/raidctl
[ -x "$walk_program" ] || "$walk_top/demo.sh" > /dev/null
PATH=$(dirname "$walk_program"):$walk_top/tools:$PATH

walk_folder=$(mktemp -d "${TMPDIR:-/tmp}/raidctl.XXXXXX")
trap 'rm -rf "$walk_folder"' EXIT
mkdir "$walk_folder/steps" "$walk_folder/walk"

# A step is a line behind `$`, with those behind `>` that go on with it, and what stands under it to the next step or to the
# end of the indented part. Writes for step N the files N.command and N.wanted, and N.line with its line in the page.
awk -v steps="$walk_folder/steps" '
    /^    \$ / { n++; print substr($0, 7) > (steps "/" n ".command"); print NR > (steps "/" n ".line")
                 printf "" > (steps "/" n ".wanted"); inside = 1; next }
    /^    > / && inside { print substr($0, 7) > (steps "/" n ".command"); next }
    /^    / && inside { print substr($0, 5) > (steps "/" n ".wanted"); next }
    { inside = 0 }' "$walk_page"

cd "$walk_folder/walk" || exit 1
walk_count=0
walk_failed=0
walk_exit=0
while [ -e "$walk_folder/steps/$((walk_count + 1)).command" ]; do
    walk_count=$((walk_count + 1))
    walk_step=$walk_folder/steps/$walk_count
    walk_command=$(cat "$walk_step.command")
    # The command sees the exit of the one before it, and what it sets stands for the next.
    (exit "$walk_exit")
    eval "$walk_command" > "$walk_step.printed" 2> "$walk_step.told" < /dev/null
    walk_exit=$?
    if ! cmp -s "$walk_step.wanted" "$walk_step.printed"; then
        walk_failed=$((walk_failed + 1))
        echo "docs/ADMIN.md:$(cat "$walk_step.line"): not as wanted: $(head -n 1 "$walk_step.command")"
        diff "$walk_step.wanted" "$walk_step.printed"
        cat "$walk_step.told"
    fi
done
echo "admin_walk: $((walk_count - walk_failed)) commands as wanted, $walk_failed not"
[ "$walk_failed" = 0 ] && [ "$walk_count" -gt 0 ]
