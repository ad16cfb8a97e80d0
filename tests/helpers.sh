# shellcheck shell=bash
# What the test scripts share, to be sourced: the counts of what passed and what failed, and the bytes of an annotated book.
passed=0
failed=0

# failure LABEL: one test that failed
failure() {
    failed=$((failed + 1))
    printf 'FAILED: %s\n' "$1"
}

# counted LABEL COMMAND..: one test, passed if the command's status is 0
counted() {
    if "${@:2}"; then passed=$((passed + 1)); else failure "$1"; fi
}

# same LABEL EXPECTED GOT: one test, passed if the two texts are the same
same() {
    if [ "$2" = "$3" ]; then
        passed=$((passed + 1))
    else
        failure "$1"
        printf '  expected: %s\n  got:      %s\n' "$2" "$3"
    fi
}

# summed LABEL COMMAND..: as many tests as the command's last line 'N passed, M failed' says, whatever stands behind that; it must say one, and where none
# failed have the status 0
summed() {
    local log status n m
    log=$(mktemp)
    printf '%s:\n' "$1"
    "${@:2}" 2>&1 | tee "$log"
    status=${PIPESTATUS[0]}
    read -r n _ m _ < <(grep -E '^[0-9]+ passed, [0-9]+ failed( |$)' "$log" | tail -n 1)
    rm -f "$log"
    passed=$((passed + ${n:-0}))
    failed=$((failed + ${m:-0}))
    if [ -z "$n" ]; then
        failure "$1 says no count"
    elif [ "$status" -ne 0 ] && [ "$m" -eq 0 ]; then
        failure "$1, status $status"
    fi
}

# totals: the line of all counts; the status is 0 only if nothing failed
totals() {
    printf '%s passed, %s failed\n' "$passed" "$failed"
    [ "$failed" -eq 0 ]
}

# bytes BOOK: the bytes of an annotated hexadecimal file
bytes() {
    # shellcheck disable=SC2059
    printf "$(sed 's/#.*//' "$1" | tr -d ' \t\r\n' | sed 's/../\\x&/g')"
}
