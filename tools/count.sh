# Counts tests over several commands, each of which closes with a line 'N passed, M failed'.
passed=0
failed=0

# Adds what a command printed as its last line; one that failed or printed no such line counts as one failure.
count() { # NAME STATUS LAST-LINE
    local name=$1 status=$2 last=$3
    if [[ $last =~ ^([0-9]+)\ passed,\ ([0-9]+)\ failed$ ]]; then
        passed=$((passed + BASH_REMATCH[1]))
        failed=$((failed + BASH_REMATCH[2]))
        if [ "$status" -ne 0 ] && [ "${BASH_REMATCH[2]}" -eq 0 ]; then
            failed=$((failed + 1))
        fi
    else
        echo "$name: no closing count (exit status $status)"
        failed=$((failed + 1))
    fi
}

# Runs a command whose last line is its count, and shows what it prints.
counted() { # NAME COMMAND WORDS..
    local name=$1 said status
    shift
    said=$(mktemp)
    "$@" 2>&1 | tee "$said"
    status=${PIPESTATUS[0]}
    count "$name" "$status" "$(tail -n 1 "$said")"
    rm -f "$said"
}

# The closing line of them all, and whether all went well. A run without a test is a failure.
closing() {
    echo "$passed passed, $failed failed"
    [ "$failed" -eq 0 ] && [ "$passed" -gt 0 ]
}
