#!/usr/bin/env bash
# Puts the program, once it is proved and built, under a folder, as /usr/local or ~/.local, with its manual page, the
# completion for bash, the documents, the examples, the tools, and units of systemd for a check each night. Nothing in it
# depends on where it is put, so the folder may be moved, or be packed.
#
#     ./install.sh PREFIX
#     ./install.sh --uninstall PREFIX
#
# What was put where is printed, and stands in PREFIX/share/doc/raidctl/INSTALLED, a name a line, below PREFIX. --uninstall
# removes what that list names, and the folders that are empty then. Ends with 64 where the words are others.
set -eu
top=$(cd "$(dirname "$0")" && pwd)
# rt run and rt ci put it there once it is proved; nothing else does.
program=$top/crates/raidctl/out/raidctl
list=share/doc/raidctl/INSTALLED

explain() {
    echo "usage: ./install.sh PREFIX | ./install.sh --uninstall PREFIX" >&2
    exit 64
}

# Removes what stands in a list of names below the prefix, and folders that are empty then.
remove() {
    local names
    names=$(cat)
    [ -n "$names" ] || return 0
    if grep -qE '^/|(^|/)\.\.(/|$)' <<< "$names"; then
        echo "$list names something that isn't below $prefix" >&2
        exit 1
    fi
    (
        cd "$prefix"
        xargs -d '\n' rm -f -- <<< "$names"
        sed -n 's|/[^/]*$||p' <<< "$names" | sort -u | xargs -d '\n' rmdir -p --ignore-fail-on-non-empty -- 2> /dev/null || true
    )
}

uninstall() {
    if [ ! -f "$prefix/$list" ]; then
        echo "there is no $prefix/$list: nothing is known to be installed there" >&2
        exit 1
    fi
    local names
    names=$(cat "$prefix/$list")
    echo "removing what $prefix/$list names: $(wc -l <<< "$names") files"
    remove <<< "$names"
}

# Puts files into a folder under the prefix, with their rights.
put() {
    local rights=$1 folder=$2
    shift 2
    mkdir -p "$prefix/$folder"
    install -m "$rights" "$@" "$prefix/$folder/"
    printf '%s\n' "${@##*/}" | sed "s|^|$folder/|"
}

# Puts a link under the prefix, to a place told from where the link stands.
link() {
    mkdir -p "$(dirname "$prefix/$2")"
    ln -sfn "$1" "$prefix/$2"
    echo "$2"
}

all() {
    local tool folder
    put 755 bin "$program"
    for tool in array-status new-array conf-from-scan; do
        link "../libexec/raidctl/$tool" "bin/$tool"
    done
    put 644 share/man/man8 "$top/install/raidctl.8"
    mkdir -p "$prefix/share/bash-completion/completions"
    install -m 644 "$top/install/raidctl.bash" "$prefix/share/bash-completion/completions/raidctl"
    echo share/bash-completion/completions/raidctl
    put 644 lib/systemd/system "$top"/install/raidctl-check@.*
    put 755 libexec/raidctl "$top"/tools/new-array "$top"/tools/conf-from-scan "$top"/tools/array-status "$top"/tools/*-picture
    put 644 libexec/raidctl "$top"/tools/*.py "$top"/tools/README.md
    put 644 share/doc/raidctl "$top"/README.md "$top"/LICENSE "$top"/CHANGES
    put 644 share/doc/raidctl/docs "$top"/docs/*.md
    put 644 share/doc/raidctl/designs "$top"/designs/*
    put 644 share/doc/raidctl/docs/pictures "$top"/docs/pictures/*.svg
    # README and the examples look for the tools there.
    link ../../../libexec/raidctl share/doc/raidctl/tools
    put 755 share/doc/raidctl/examples "$top"/examples/*.sh
    put 644 share/doc/raidctl/examples "$top/examples/README.md"
    for folder in "$top"/examples/*/; do
        put 644 "share/doc/raidctl/examples/$(basename "$folder")" "$folder"*
    done
    echo "$list"
}

case "$#${1:-}" in
1 | 1-*) explain ;;
1*) ;;
2--uninstall) ;;
*) explain ;;
esac
[ -n "${!#}" ] || explain
if [ $# = 2 ]; then
    prefix=$(cd "$2" && pwd)
    uninstall
    exit
fi
if [ ! -x "$program" ]; then
    echo "raidctl isn't built yet: ./demo.sh proves and builds it" >&2
    exit 1
fi
mkdir -p "$1"
prefix=$(cd "$1" && pwd)
made=$(mktemp)
trap 'rm -f "$made"' EXIT
all > "$made"
# What an earlier install put here, and this one doesn't.
if [ -f "$prefix/$list" ]; then
    grep -vxFf "$made" "$prefix/$list" | remove || true
fi
mkdir -p "$(dirname "$prefix/$list")"
install -m 644 "$made" "$prefix/$list"
sed "s|^|$prefix/|" "$made"
