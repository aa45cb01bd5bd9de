# shellcheck shell=sh
# Shared by the hosts' tests. They work in the repository's root, and set `out`, the folder for what they make, before.

log=${out:?}/log
mkdir -p "$out"
passed=0
failed=0

# check NAME COMMAND..: one line that says whether the command succeeds, and why not.
check() {
    name=$1
    shift
    if "$@" >"$log" 2>&1; then
        echo "ok     $name"
        passed=$((passed + 1))
    else
        echo "FAILED $name"
        sed 's/^/       /' "$log"
        failed=$((failed + 1))
    fi
}

passed_over() {
    echo "passed over: $1"
}

# summary WORD: the last line, and the status of the tests.
summary() {
    echo "$1: $passed passed, $failed failed"
    [ "$failed" -eq 0 ]
}

# compile COMPILER ARGUMENT..
compile() {
    "$@" -std=c11 -Wall -Wextra -Werror -Iinclude
}

# older_host COMPILER ARCHIVE: whether what was compiled for version 4 does not link, and the linker names what it misses.
older_host() {
    object=$out/version4.o
    missing=serialpost4_serial_write
    compile "$1" -c -o "$object" hosts/c/version4.c || return 1
    if LC_ALL=C "$1" -o "$out/version4" "$object" "$2" 2>"$out/version4.log"; then
        echo "it links"
        return 1
    fi
    grep -q "undefined reference to .$missing" "$out/version4.log" || { cat "$out/version4.log"; return 1; }
}

# recorded_forms HOW, readme_lines HOW: where HOW NAME builds and runs hosts/c/NAME.c
recorded_forms() {
    forms=compare/recorded/forms.txt
    "$1" recorded <"$forms" >"$out/forms.txt" && diff "$forms" "$out/forms.txt"
}

readme_lines() {
    [ "$(printf 'ls\n' | "$1" port)" = ">ls" ]
}
