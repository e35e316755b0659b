# What tests/xpath2 and tests/engines do alike, sourced by each from the repository's root: the library's cases as one query of XQuery, and Saxon-HE.
# shellcheck shell=bash

# shellcheck source=tests/compiling.sh
. tests/compiling.sh

packages+=(default-jre-headless libsaxonhe-java)

# Writes the cases of standard input as a query for an engine; further words set variables of tests/calls.awk.
make_calls() {
    local engine=$1 out=$2
    shift 2
    awk -v engine="$engine" "${@/#/-v}" -f tests/calls.awk >"$out"
}

# Asks an engine by a command, whose answer is a line for each case; shows the first failures and counts, in `passed`, `failed`, `left_out` and `faults`.
ask() {
    local engine=$1 log=$built/$1.log
    shift
    if ! java -Xss64m "$@" >"$log" 2>"$log.errors"; then
        tail -n 5 "$log.errors"
        say_and_fail "$engine does not take the cases"
    fi
    grep '^failed' "$log" | head -n 10
    passed=$(grep -c '^passed$' "$log")
    failed=$(grep -c '^failed' "$log")
    left_out=$(grep -c '^left out$' "$log")
    faults=$(grep -c '^fault: ' "$log")
}

# Asks Saxon without its optimizer, which takes /descendant::node()/child::node() for /descendant::node().
ask_saxon() {
    ask Saxon-HE -cp /usr/share/java/Saxon-HE.jar net.sf.saxon.Query -opt:0 -q:"$1" '!method=text'
}
