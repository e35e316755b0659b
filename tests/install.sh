#!/usr/bin/env bash
# Installs into folders of its own and tries what was installed: its files, and that uninstalling takes just them away, as Debian's tools
# do it; the shared library's names; the README's C example, linked both ways; calls from another language; the manual pages.
# The variables compiler and emulator say how programs for x86-64 are built and run here; emulator may be empty.
set -u
: "${compiler:?}" "${emulator?}"
cd "$(dirname "$0")/.." || exit 2

# What an outer make or the caller chose says nothing of what is tried here.
unset MAKEFLAGS MAKEOVERRIDES MFLAGS CC LDFLAGS INSTALL DESTDIR PREFIX BINDIR INCLUDEDIR LIBDIR MANDIR MANOPT MAN_KEEP_FORMATTING
# Tools say what they say in English; the emulator takes the loader and the C library from Debian's cross packages.
export LC_ALL=C.UTF-8 QEMU_LD_PREFIX=/usr/x86_64-linux-gnu

group=install
# shellcheck source=tests/counting.sh
. tests/counting.sh

prefix=$PWD/target/tests/prefix
shared=$prefix/lib/libhalyardfig.so
staging="$PWD/target/tests/staging folder"
debian=(DESTDIR="$staging" PREFIX=/usr LIBDIR=/usr/lib/x86_64-linux-gnu)
version=$(sed -n 's/^VERSION = //p' Makefile)
major=${version%%.*}
programs=(halyardfig-compose halyardfig-sheet halyardfig-show)

# The header's calls, which the library has, and its functions that take an answer apart, which it has not.
calls=$(sed -n 's/^uint64_t \(halyardfig_[a-z0-9_]*\).*/\1/p' include/halyardfig.h)
inlines=$(sed -n 's/^static inline uint32_t \(halyardfig_[a-z0-9_]*\).*/\1/p' include/halyardfig.h)

# Shows how the lines of the second text differ from those of the first, which are expected, whatever their order.
same_lines() {
    diff <(printf '%s\n' "$1" | sort) <(printf '%s\n' "$2" | sort)
}

installed() {
    rm -rf "$prefix"
    make install PREFIX="$prefix" >/dev/null
}

# The files below the staging folder.
staged() {
    find "$staging" ! -type d -printf '/%P\n'
}

# Where Debian has what is installed.
places() {
    local name
    for name in "${programs[@]}"; do
        echo "/usr/bin/$name"
        echo "/usr/share/man/man1/$name.1"
    done
    echo /usr/include/halyardfig.h
    for name in a so "so.$major" "so.$version"; do
        echo "/usr/lib/x86_64-linux-gnu/libhalyardfig.$name"
    done
    echo /usr/lib/x86_64-linux-gnu/pkgconfig/halyardfig.pc
    for name in halyardfig $calls $inlines; do
        echo "/usr/share/man/man3/$name.3"
    done
}

# Every file is in its place, no link leads nowhere, and no file names the staging folder.
staged_for_debian() {
    rm -rf "$staging"
    make install "${debian[@]}" >/dev/null && same_lines "$(places)" "$(staged)" &&
        [ -z "$(find "$staging" -xtype l)" ] && ! grep -rqF "$staging" "$staging"
}

# A file of others beside ours stays.
uninstalled() {
    touch "$staging/usr/bin/another"
    make uninstall "${debian[@]}" >/dev/null && same_lines /usr/bin/another "$(staged)"
}

configured() {
    PKG_CONFIG_PATH=$prefix/lib/pkgconfig pkg-config "$@" halyardfig
}

# Header, README, manual, pkg-config and shared library are of one version.
of_one_version() {
    grep -qF "Version $version of the library" include/halyardfig.h && grep -qF "libhalyardfig.so.$major" README.md &&
        grep -qF "libhalyardfig.so.$major" man/halyardfig.3 &&
        same_lines "$version" "$(configured --modversion)" &&
        same_lines "libhalyardfig.so.$major" "$(readelf -dW "$shared" | sed -n 's/.*soname: \[\(.*\)\]$/\1/p')"
}

# The names in the shared library that are defined elsewhere (1) or there (0).
names() {
    readelf --dyn-syms -W "$shared" | awk -v elsewhere="$1" '
        $1 ~ /^[0-9]+:$/ && $8 != "" && ($7 == "UND") == elsewhere { sub(/@.*/, "", $8); print $8 }'
}

# Beside the calls only the name of their version is there.
has_the_calls() {
    same_lines "$calls"$'\n'"halyardfig_$major" "$(names 0)"
}

needs_two_names() {
    same_lines $'memcpy\nmemset' "$(names 1)"
}

# Its code and its constants stay as they are in the file, and nothing that can be written is run.
is_closed() {
    local dynamic segments relocations
    dynamic=$(readelf -dW "$shared") && segments=$(readelf -lW "$shared") && relocations=$(readelf -rW "$shared") &&
        [[ $dynamic != *TEXTREL* && $dynamic == *BIND_NOW* && $segments == *GNU_RELRO* && $segments != *RWE* &&
            $relocations != *_RELATIVE* ]]
}

# The example is the README's one block of C; with --static it is linked with the archive.
example_compiles() {
    local found
    # shellcheck disable=SC2016
    sed -n '/^```c$/,/^```$/p' README.md | sed '1d;$d' >"$prefix/example.c"
    found=$(configured "$@" --cflags --libs) || return 1
    # shellcheck disable=SC2086
    "$compiler" -std=c11 -Wall -Wextra -Werror "${@/#--static/-static}" "$prefix/example.c" $found -o "$prefix/example"
}

example_runs() {
    local answer
    answer=$(LD_LIBRARY_PATH=$prefix/lib $emulator "$prefix/example") || return 1
    [ "$(printf '%s\n' "$answer" | tail -n 2)" = $'4 of 7 nodes kept\n<a><b><d></d></b></a>' ]
}

# The program names the shared library by its soname, so that the first number of the version is enough.
example_is_shared() {
    readelf -dW "$prefix/example" | grep -qF "[libhalyardfig.so.$major]"
}

# Python loads the library where it is for the same machine; elsewhere a C program opens it under the emulator, and stands in for Python.
called_by_name() {
    if [ -z "$emulator" ]; then
        python3 tests/loaded.py "$shared"
    else
        "$compiler" -std=c11 -O2 -Wall -Wextra -Werror -Iinclude tests/loaded.c -o "$prefix/loaded" && $emulator "$prefix/loaded" "$shared"
    fi
}

# Shows what man warns of.
without_warnings() {
    local page said
    for page in man/*.[1-9]; do
        said=$(MANROFFSEQ='' MANWIDTH=80 man --warnings -E UTF-8 -l -Tutf8 -Z "$page" 2>&1 >/dev/null) && [ -z "$said" ] && continue
        echo "$page: $said"
        return 1
    done
}

# Each page is found by its names, and says them where whatis looks.
found_by_name() {
    local name
    for name in halyardfig $calls $inlines; do
        man -M "$prefix/share/man" -w 3 "$name" >/dev/null || return 1
    done
    for name in "${programs[@]}"; do
        man -M "$prefix/share/man" -w 1 "$name" >/dev/null || return 1
    done
    same_lines "$(printf '%s\n' "${programs[@]}" halyardfig "$calls" "$inlines")" \
        "$(lexgrog man/*.[1-9] | sed 's/^[^"]*"\([^ ]*\) - .*/\1/')"
}

# What the header says, a line for each paragraph of its comments, each refusal, function and constant; without backticks.
header_says() {
    tr -d '`' <include/halyardfig.h | awk '
        function add(text) { said = said (said == "" || text == "" ? "" : " ") text }
        function tell() { if (said != "") print said; said = "" }
        /^#define [A-Z0-9_]+_REFUSED_[A-Z_]+ / { print $3, $2; next }
        /^#define [A-Z0-9_]+ / { print $2, $3; next }
        /^static inline/ { sub(/^static inline /, ""); print $0 ";"; next }
        /^\/\*/ { commented = 1; sub(/^\/\*/, " *") }
        commented {
            last = sub(/ *\*\/$/, "")
            sub(/^ \* ?/, "")
            if (/^  [0-9]/) tell()
            if (/^  /) { sub(/^ +([0-9]+ +)?/, ""); sub(/  .*$/, "") }
            if ($0 == "") tell(); else add($0)
            if (last) { tell(); commented = 0 }
            next
        }
        /^uint64_t / { declared = 1 }
        declared { sub(/^ +/, ""); add($0); if (/;$/) { tell(); declared = 0 } }'
}

# The manual says all that, in the same words.
manual_says_it() {
    local manual line missing=0 count=0
    manual=$(MANWIDTH=20000 LC_ALL=C man -l man/halyardfig.3 | tr -s '[:space:]' ' ') || return 1
    while read -r line; do
        count=$((count + 1))
        [[ $manual == *"$line"* ]] && continue
        echo "man/halyardfig.3 does not say: $line"
        missing=1
    done < <(header_says)
    [ "$count" -gt 0 ] && [ "$missing" -eq 0 ]
}

step 'make install' installed
step 'make install, as Debian calls it' staged_for_debian
step 'make uninstall' uninstalled
step 'one version' of_one_version
step "the shared library's names" has_the_calls
step 'what the shared library needs' needs_two_names
step "the shared library's code and pages" is_closed
step 'the README example, compiled with the archive' example_compiles --static
step 'the README example, run' example_runs
step 'the README example, compiled with the shared library' example_compiles
step "the shared library's name in a program" example_is_shared
step 'the README example, run with the shared library' example_runs
step 'the shared library, called by name' called_by_name
step 'manual pages without warnings' without_warnings
step 'manual pages by name' found_by_name
step "the header's words in the manual" manual_says_it

# Its links would stop a later rt ci in this checkout, which takes none.
rm -rf "$prefix" "$staging"

tell_counts
