# Completion of raidctl's words for bash.

# A word as the shell will take it: without quotes and backslashes, and with the home folder for a ~/ at its front. A quote
# that isn't closed yet goes too.
_raidctl_plain() {
    local word=$1
    # The shell hasn't expanded it.
    # shellcheck disable=SC2088
    [[ $word != '~/'* ]] || word=$HOME/${word#'~/'}
    word=${word//[\"\']/}
    printf '%s\n' "${word//\\/}"
}

# The configuration among the words: the first that is neither an option nor the value of one. Bash takes `--io=NAME` as
# three words.
_raidctl_conf() {
    local i skip=
    for ((i = 1; i < COMP_CWORD; i++)); do
        if [ "${COMP_WORDS[i]}" = = ]; then
            skip=yes
            continue
        elif [ -n "$skip" ]; then
            skip=
            continue
        fi
        case ${COMP_WORDS[i]} in
        --io | --graphs | --sweep | --clients | --ops | --limit | --sim | --rows | -w | -I | -f | -F | -R | -g) skip=yes ;;
        -*) ;;
        *)
            _raidctl_plain "${COMP_WORDS[i]}"
            return
            ;;
        esac
    done
}

# The names of the configuration's disks, and where a word is given those of its spares too.
_raidctl_names() {
    local conf
    conf=$(_raidctl_conf)
    [ -r "$conf" ] || return
    awk -v spares="$#" '
        { sub(/#.*/, "") }
        $1 == "START" { inside = $2 == "disks" || spares > 0 && $2 == "spare"; next }
        inside && NF && $1 != "absent" { print $1 }' "$conf"
}

_raidctl() {
    local word=${COMP_WORDS[COMP_CWORD]} before=${COMP_WORDS[COMP_CWORD - 1]} words=
    COMPREPLY=()
    if [ "$word" = = ]; then
        word=
    elif [ "$before" = = ]; then
        before=${COMP_WORDS[COMP_CWORD - 2]}
    fi
    case $before in
    --io | --graphs) ;;
    -f | -F | -R) words=$(_raidctl_names) ;;
    -g) words=$(_raidctl_names spares) ;;
    -w) words=$(echo {0..16}) ;;
    --clients) words=$(echo {1..16}) ;;
    --sim) words='fifo sstf scan' ;;
    --sweep | --ops | --limit | --rows | -I) return ;;
    *)
        if [ -n "$(_raidctl_conf)" ] || [[ $word == -* ]]; then
            words='-s -m -p -P -i -I -f -F -R -g -G -w --resume --limit --map --adopt --io --graphs --trace --sweep --clients --ops --scan --sim --layout --rows --help --version'
        fi
        ;;
    esac
    if [ -n "$words" ]; then
        mapfile -t COMPREPLY < <(compgen -W "$words" -- "$word")
    else
        compopt -o filenames 2> /dev/null
        mapfile -t COMPREPLY < <(compgen -f -- "$(_raidctl_plain "$word")")
    fi
}

complete -F _raidctl raidctl
