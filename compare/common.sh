# shellcheck shell=bash
# Shared by the judge's commands. They can be called from anywhere and work in the repository's root.

set -u

root=$(realpath "$(dirname "${BASH_SOURCE[0]}")/..")
tools=target/compare
lists=$tools/lists
passed=0
failed=0

# fail WHY: ends a command that cannot do what it was asked.
fail() {
    echo "$(basename "$0"): $1" >&2
    exit 2
}

# take_replay [REPLAY DEVICE...]: the program to be judged and the devices that it has.
take_replay() {
    replay=
    replay_devices=
    [ $# -gt 0 ] || return 0
    replay=$(realpath -e "$1") || exit 2
    shift
    [ $# -gt 0 ] || fail "which devices does $replay have?"
    replay_devices=$(IFS=, && echo "$*")
}

# Builds the judge and finds out about the original: whether it is there, and how old it is. Since 0.8.2 a
# write of the interrupt enable register announces what is pending. An older original is compared with
# the account of its own ways, and with ours on lists that leave such writes out.
prepare() {
    cd "$root" || exit 2
    if ! make -s -f compare/Makefile; then
        check "the judge builds" false
        summary
        exit
    fi
    rm -rf "$lists"
    mkdir -p "$lists"
    original=
    account='account --original'
    domain=
    if [ ! -x "$tools"/original ]; then
        echo "the original's source is not at hand (VM_SUPERIO_SRC names its folder): going on without"
        return
    fi
    original=original
    if printf 'serial\nw 01 02\n' | "$tools"/original | grep -qx 'w -- 0'; then
        account='account --quiet-enable'
        domain=--quiet-enable
    fi
}

# check NAME COMMAND..: one line that says whether the command succeeds, and why not.
check() {
    local name=$1 output
    shift
    if output=$("$@" 2>&1); then
        echo "ok     $name"
        passed=$((passed + 1))
    else
        echo "FAILED $name"
        sed 's/^/       /' <<<"$output"
        failed=$((failed + 1))
    fi
}

# list ARGUMENT..: the file with the list that `generate` makes of these arguments.
list() {
    local file="$lists/$*"
    file=${file// /_}
    [ -f "$file" ] || "$tools"/generate "$@" >"$file" || exit 2
    echo "$file"
}

# agree WHAT LEFT RIGHT LIST: whether two answerers agree on a list.
agree() {
    check "$1: ${2##*/} and ${3##*/}" "$tools"/compare "$2" "$3" "$4"
}

# beside WHAT ORIGINAL OURS LIST: whether they differ where the rows say so, and nowhere else.
beside() {
    check "$1: rows of ${2##*/} and ${3##*/}" "$tools"/compare --rows "$2" "$3" "$4"
}

# judge WHAT ARGUMENT..: whether all are as they should on such a list: original, account and replay. Beside ours the original is
# one whose guest reads what ours throws away; that too is held to its account.
judge() {
    local what=$1 devices=()
    shift
    [ -z "$replay" ] || devices=(--devices "$replay_devices")
    if [ -n "$original" ]; then
        agree "$what" original "$account" "$(list "$@")"
        agree "$what" "original --fetches" "$account --fetches" "$(list "$@")"
    fi
    if [ -n "$replay" ]; then
        agree "$what" account "$replay" "$(list "$@" "${devices[@]}")"
    fi
    beside "$what" "${original:-$account} --fetches" "${replay:-account}" "$(list "$@" "${devices[@]}" $domain)"
}

# sized WHAT ARGUMENT..: whether replay answers as our account on such a list, which has ports of all sizes. The original has one
# size and is not asked.
sized() {
    local what=$1
    shift
    [[ ,$replay_devices, == *,serial,* ]] || return 0
    agree "$what" account "$replay" "$(list "$@" --devices serial)"
}

# What was not compared, the last line, and the status of the command.
summary() {
    if [ -z "${original-}" ]; then
        echo "not compared: vm-superio itself, whose source is not at hand; its account and its recorded answers stood for it"
    elif [ -n "${domain-}" ]; then
        echo "not compared with vm-superio: writes of the interrupt enable register, which this version, before 0.8.2, only stores"
    fi
    echo "$passed passed, $failed failed"
    [ "$failed" -eq 0 ]
}
