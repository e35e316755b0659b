# What tests/run, bench/run and bench/instructions do alike, sourced by each from the repository's root: the flag --sudo, packages, the archive.
# They set `built` to the folder for what they make; functions that fail print why.
# shellcheck shell=bash

# Packages are installed by root, or with sudo where the first argument asks for it; that argument is then gone.
as_root=()
if [ "${1:-}" = --sudo ]; then
    [ "$(id -u)" -eq 0 ] || as_root=(sudo)
    shift
fi

is_installed() {
    [ "$(dpkg-query -W -f '${db:Status-Status}' "$1" 2>/dev/null)" = installed ]
}

install_all() {
    "${as_root[@]}" apt-get update -qq &&
        "${as_root[@]}" env DEBIAN_FRONTEND=noninteractive apt-get install -y -qq "$@"
}

# Installs those of the packages that are missing.
install_missing() {
    local missing=() package
    for package in "$@"; do
        is_installed "$package" || missing+=("$package")
    done
    [ ${#missing[@]} -eq 0 ] && return 0
    if [ "$(id -u)" -ne 0 ] && [ ${#as_root[@]} -eq 0 ]; then
        echo "missing: ${missing[*]}; install them, or ask for it by --sudo"
        return 1
    fi
    echo "installing ${missing[*]}"
    install_all "${missing[@]}" >"${built:?}/install.log" 2>&1 && return 0
    tail -n 20 "$built/install.log"
    return 1
}

# Makes the static library, unless ARCHIVE names one; an archive of an earlier build is never used.
make_archive() {
    if [ -n "${ARCHIVE:-}" ]; then
        [ -f "$ARCHIVE" ] && return 0
        echo "there is no $ARCHIVE"
        return 1
    fi
    if ! command -v rt >/dev/null; then
        echo "rt, which builds the static library, is not on the PATH, and ARCHIVE names none"
        return 1
    fi
    if ! (cd crates/halyardfig_c && rt lib) >"${built:?}/archive.log" 2>&1; then
        tail -n 20 "$built/archive.log"
        return 1
    fi
    ARCHIVE=target/staticlib/libhalyardfig.a
    mkdir -p "${ARCHIVE%/*}" && cp crates/halyardfig_c/out/libhalyardfig_c.a "$ARCHIVE"
}
