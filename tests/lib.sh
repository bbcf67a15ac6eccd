# shellcheck shell=sh
# Counting for the test scripts; POSIX sh. Source it from the project's root, end with 'finish'. Gives $work, a folder that is removed at
# the end.
passed=0
failed=0
work=$(mktemp -d) || exit 2
trap 'rm -rf "$work"' EXIT
trap 'exit 2' HUP INT TERM

pass() {
    passed=$((passed + 1))
}

fail() {
    failed=$((failed + 1))
    printf 'FAILED %s\n' "$1"
}

# same NAME WANTED GOT
same() {
    if [ "$2" = "$3" ]; then
        pass
    else
        fail "$1: expected '$2', got '$3'"
    fi
}

# same_file NAME WANTED GOT: the two files have the same bytes
same_file() {
    if cmp -s "$2" "$3"; then
        pass
    else
        fail "$1: expected (<), got (>)"
        diff "$2" "$3" | head -n 10
    fi
}

# has NAME WORDS FILE: the file has these words
has() {
    if grep -qF -e "$2" "$3"; then
        pass
    else
        fail "$1: no '$2' in what was said:"
        head -n 10 "$3"
    fi
}

# works NAME COMMAND..: the command ends with status 0; what it says is shown if it does not
works() {
    named=$1
    shift
    if "$@" >"$work/said" 2>&1; then
        pass
    else
        fail "$named"
        head -n 20 "$work/said"
    fi
}

# counts NAME COMMAND..: the command counts for itself, and its last line is taken over
counts() {
    named=$1
    shift
    "$@" >"$work/said" 2>&1
    ended=$?
    sed '$d' "$work/said"
    counted=$(sed -n '$s/^\([0-9][0-9]*\) passed, \([0-9][0-9]*\) failed$/\1 \2/p' "$work/said")
    if [ -z "$counted" ]; then
        fail "$named: it ended with status $ended and counted nothing"
        tail -n 1 "$work/said"
        return
    fi
    passed=$((passed + ${counted% *}))
    failed=$((failed + ${counted#* }))
    if [ "$ended" -ne 0 ] && [ "${counted#* }" -eq 0 ]; then
        fail "$named: it counted no failure and ended with status $ended"
    fi
}

finish() {
    printf '%d passed, %d failed\n' "$passed" "$failed"
    [ "$failed" -eq 0 ]
    exit
}
