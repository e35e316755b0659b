# What tests/run, tests/xpath2 and tests/engines do alike, sourced by each from the repository's root: how programs over the library are built,
# and those that hold its cases to other engines. Each may set `counted`, what its last line begins with, and adds to `packages` before it calls prepare.
# shellcheck shell=bash

if [ "${SEED:-}" = clock ]; then
    SEED=$(date +%s)
    export SEED
    echo "SEED=$SEED"
fi

# shellcheck source=tests/building.sh
. tests/building.sh

built=target/tests
flags=(-std=c11 -O2 -Wall -Wextra -Werror -Iinclude)
packages=(gcc libc6-dev)

say_and_fail() {
    echo "tests/${0##*/}: $1"
    echo "${counted:-}0 passed, 1 failed"
    exit 1
}

# The library is for x86-64; elsewhere its programs are built by a cross compiler and emulated.
case $(uname -m) in
x86_64)
    compiler=gcc
    emulator=()
    ;;
aarch64)
    compiler=x86_64-linux-gnu-gcc
    emulator=(qemu-x86_64)
    packages+=(gcc-x86-64-linux-gnu libc6-dev-amd64-cross qemu-user)
    ;;
*)
    say_and_fail "no tests for the machine $(uname -m)"
    ;;
esac

# Installs the packages that are missing, and makes the archive.
prepare() {
    mkdir -p "$built"
    install_missing "${packages[@]}" || say_and_fail "could not install what is missing"
    make_archive || say_and_fail "no static library"
}

# Builds a program that calls the library.
build() {
    local name=$1
    shift
    "$compiler" "${flags[@]}" -static "tests/$name.c" "$@" "$ARCHIVE" -o "$built/$name"
}

# Builds the program that writes cases for other engines.
build_cases() {
    build engine_cases tests/support.c tests/making.c tests/cases.c
}

# Builds a program that judges cases, for this machine.
build_check() {
    local name=$1 cflags libs
    shift
    read -ra cflags < <(xml2-config --cflags)
    read -ra libs < <(xml2-config --libs)
    gcc "${flags[@]}" "${cflags[@]}" "$@" tests/checking.c tests/support.c "${libs[@]}" -o "$built/$name"
}

# The counts in the last line of a group's log; nothing where it has none.
counts_in() {
    sed -n "\$s/^$1: \([0-9]*\) passed, \([0-9]*\) failed\$/\1 \2/p" "$2"
}
