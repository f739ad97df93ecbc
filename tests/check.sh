# For scripts that count what passes and fails, to be sourced.
passed=0 failed=0

# A command that passes or fails as a whole.
check() { # NAME COMMAND..
    local name=$1
    shift
    if "$@"; then
        echo "ok: $name"
        passed=$((passed + 1))
    else
        echo "FAILED: $name"
        failed=$((failed + 1))
    fi
}

# The last line and the status of such a script.
verdict() {
    echo "$passed passed, $failed failed"
    [ "$failed" -eq 0 ]
}
