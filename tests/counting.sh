# What the tests in shell do alike, sourced by each from the repository's root, which sets `group`: counting, and long texts.
# shellcheck shell=bash

passed=0
failed=0

# Counts a test by the status of its command.
step() {
    local name=$1
    shift
    if "$@"; then
        passed=$((passed + 1))
    else
        failed=$((failed + 1))
        echo "${group:?}: $name failed"
    fi
}

is_same() {
    [ "$2" = "$1" ] && return
    echo "wanted '${1:0:200}', got '${2:0:200}'"
    return 1
}

# Counts a test: what came, the last argument, must be what was wanted.
same() {
    step "$1" is_same "$2" "$3"
}

# Ends the tests with the line that counts them.
tell_counts() {
    echo "$group: $passed passed, $failed failed"
    [ "$failed" -eq 0 ]
}

# So many times the same text.
times() {
    local text
    printf -v text '%*s' "$1" ''
    printf '%s' "${text// /$2}"
}
