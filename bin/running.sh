# shellcheck shell=bash
# What the programs of bin/ share, which source this file: building one where it is missing or older than the code, and running it.
# Building proves every crate that the program stands on; what that prints goes into a log, which is named where it fails.
# A program is for x86-64, and on another machine an emulator runs it.
root=$(cd "$(dirname "$(readlink -f "${BASH_SOURCE[0]}")")/.." && pwd -P) || exit 2

# Is there code that is newer than the program?
is_stale() {
    [ -n "$(find "$root/crates.txt" "$root/crates" -name out -prune -o -type f \( -name '*.rt' -o -name crates.txt \) -newer "$1" -print -quit)" ]
}

# How many crates of the repository a crate stands on, itself counted: crates.txt names each below those that it uses.
crates_of() {
    awk -F: -v wanted="$1" '
        /^#/ { next }
        { sub(/ .*/, "", $1); uses[$1] = $2; name[++lines] = $1 }
        END {
            needed[wanted] = 1
            for (i = lines; i > 0; i--)
                if (name[i] in needed) {
                    count++
                    parts = split(uses[name[i]], part, " ")
                    for (j = 1; j <= parts; j++)
                        needed[part[j]] = 1
                }
            print count + 0
        }' "$root/crates.txt"
}

# Passes over what is printed while crates are proved, and counts them on one line where standard error is a terminal.
show_progress() {
    local proved=0 line
    while IFS= read -r line; do
        case $line in
        'logic=proved '*)
            proved=$((proved + 1))
            [ ! -t 2 ] || printf '\r%s' "crate $proved of $1" >&2
            ;;
        esac
    done
    [ ! -t 2 ] || echo >&2
}

# Builds a program by running it on nothing, and dates it back to the beginning of that, so that code changed meanwhile is newer.
build() {
    local crate=$1 program=$2 log=$root/target/log/building-$1.txt crates
    mkdir -p "${log%/*}" "${program%/*}" && touch "$log.begun" || return 1
    crates=$(crates_of "$crate")
    echo "Building $crate: its $crates crates are proved, but for those unchanged since the last time; all take about $(((crates + 3) / 4)) min." >&2
    (cd "$root/crates/$crate" && rt run) </dev/null 2>&1 | tee "$log" | show_progress "$crates"
    if [ "${PIPESTATUS[0]}" -ne 0 ] || ! cp -f "$root/crates/$crate/out/$crate" "$program"; then
        echo "Building $crate failed; $log says why." >&2
        return 1
    fi
    touch -r "$log.begun" "$program" && rm -f "$log.begun"
}

# Runs a program: by itself, or under an emulator with the loader and the C library of the kit.
# The emulated processor is a plain one, for which the C library fills memory without `rep stosb`: an emulator takes that byte by byte.
run_here() {
    if [ "$(uname -m)" = x86_64 ]; then
        "$1"
        return
    fi
    local kit tools emulator
    kit=${RATTLE_HOME:-$(dirname "$(dirname "$(readlink -f "$(command -v rt)")")")}
    tools=$kit/on/$(uname -m)/toolchain
    emulator=$tools/bin/qemu-x86_64
    [ -x "$emulator" ] || emulator=qemu-x86_64
    "$emulator" -cpu Nehalem "$tools/lib/ld-linux-x86-64.so.2" --library-path "$tools/lib" "$1"
}

# Runs the program of a crate, built on first use and whenever a source is newer.
run_program() {
    local program=$root/target/bin/$1
    if [ ! -x "$program" ] || is_stale "$program"; then
        build "$1" "$program" || return 2
    fi
    run_here "$program"
}

# Prints what the program of a crate prints, which has no byte 0 and is nothing, or ends with an LF that none stands before; status 0, or 1 where that begins as the second argument does.
# Status 2 where the program is not built, fails or can't be printed.
print_answer() {
    local answer
    answer=$(run_program "$1") && printf '%s' "${answer:+$answer$'\n'}" || return 2
    [[ $answer != "$2"* ]]
}
