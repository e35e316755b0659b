#!/usr/bin/env bash
# Runs the printing program on the sample of docs/SCOPE.md, on the examples of docs/VIEWS.md and at the edges of its input.
set -u
cd "$(dirname "$0")/.." || exit 2

group=program
# shellcheck source=tests/counting.sh
. tests/counting.sh

# Standard input goes to the program, with the arguments past the second; it must print just the second.
prints() {
    local name=$1 wanted=$2
    shift 2
    same "$name" "$wanted"$'\n'end "$(bin/compose "$@" 2>/dev/null; echo end)"
}

seen='self::b/parent::node()[not(parent::node())]'
visible="descendant-or-self::node()[$seen] or ancestor-or-self::node()[$seen]"
step="/child::a[$visible]"
last="/descendant-or-self::node()[ancestor-or-self::node()[$seen]]"

prints "01's sample" "$step$last"$'\nsize 28 nesting 4' < <(printf '/a\n/b\na\nb\n')
prints 'a line twice' 'refused outer 2 4' < <(printf '/a\n/b\na\nb\na\n')
prints 'a line without LF' 'refused outer 2 2' < <(printf '/a\n/b\na\nb')
prints 'a bar in a predicate' 'refused outer 3 4' < <(printf '/a[b|c]\n/b\na\nb\nc\n')
prints 'two slashes alone' 'refused outer 3 2' < <(printf '//\n/b\na\nb\n')
prints 'a predicate after a dot' 'refused outer 3 2' < <(printf '/.[a]\n/b\na\nb\n')
prints 'an axis left out' 'refused outer 3 12' < <(printf '/a/attribute::b\n/b\na\nb\n')
prints "01's sample of an axis left out, read now" "$step/preceding::b[$visible]$last"$'\nsize 46 nesting 4' < <(printf '/a/preceding::b\n/b\na\nb\n')
prints 'ancestor, not guarded' "$step/ancestor::b$last"$'\nsize 29 nesting 4' < <(printf '/a/ancestor::b\n/b\na\nb\n')
prints 'following-sibling, turned' "/descendant-or-self::node()[ancestor-or-self::node()[${seen/parent/preceding-sibling}]]"$'\nsize 10 nesting 4' < <(printf '/\n/following-sibling::b\na\nb\n')
prints 'an attribute' 'refused outer 3 3' < <(printf '/a[@b]\n/b\na\nb\n')
prints '65 brackets' 'refused outer 4 66' < <(printf '/a[%sb%s]\n/b\na\nb\n' "$(times 64 '(')" "$(times 64 ')')")
prints 'lines that end with CR LF' "$step$last"$'\nsize 28 nesting 4' < <(printf '/a\r\n/b\r\na\nb\n')
prints 'CR in the name list' 'refused outer 2 2' < <(printf '/a\r\n/b\r\na\nb\r\n')
prints 'an unknown name' 'refused outer 5 1' < <(printf '/e\n/b\na\nb\n')
prints 'an unknown name in the view' 'refused inner 5 1' < <(printf '/a\n/e\na\nb\n')
prints 'the outer query first' 'refused outer 5 1' < <(printf '/e\n/[\na\nb\n')
prints 'a nesting of 65' 'refused compose 9 65' < <(printf '/a%s%s\n/b\na\nb\n' "$(times 61 '[a')" "$(times 61 ']')")
prints '4,114 items' 'refused compose 10 4114' < <(printf '%s\n/b\na\nb\n' "$(times 228 /a)")
prints 'a text too long' "refused print 10 $((227 * ${#step} + ${#last}))" < <(printf '%s\n/b\na\nb\n' "$(times 227 /a)")
prints 'no input' 'refused outer 3 0' </dev/null
prints 'one line without LF' 'refused inner 3 0' < <(printf '/')
prints 'no name list' "/descendant-or-self::node()[ancestor-or-self::node()[self::node()[not(parent::node())]]]"$'\nsize 9 nesting 4' < <(printf '/\n/')
prints '49,153 bytes' 'refused input 1 0' < <(times 49153 /)
prints '49,152 bytes in one line' 'refused outer 1 0' < <(times 49152 /)

# LEANLY.
prints 'the lean sample' "/child::a$last"$'\nsize 11 nesting 4' --lean < <(printf '/a\n/b\na\nb\n')
prints 'a lean step up' "$step/parent::node()$last"$'\nsize 29 nesting 4' --lean < <(printf '/a/..\n/b\na\nb\n')
prints 'a lean path in a predicate' "/child::a[child::a/child::a[$visible]]$last"$'\nsize 31 nesting 5' --lean < <(printf '/a[a/a]\n/b\na\nb\n')
prints 'a lean nesting of 65' 'refused compose 9 65' --lean < <(printf '/a%s%s\n/b\na\nb\n' "$(times 61 '[a')" "$(times 61 ']')")
prints '228 lean steps' "$(times 228 /child::a)$last"$'\nsize 238 nesting 4' --lean < <(printf '%s\n/b\na\nb\n' "$(times 228 /a)")
prints '4,097 lean items' 'refused compose 10 4097' --lean < <(printf '%s\n/b\na\nb\n' "$(times 4087 /a)")
prints 'lean and unknown' 'refused outer 5 1' --lean < <(printf '/e\n/b\na\nb\n')
prints 'lean and too long' 'refused input 1 0' --lean < <(times 49153 /)

# FIRST USE, in a small repository with a stand-in for the kit: what is said, and where the log is.
small=$(mktemp -d) || exit 2
trap 'rm -rf "$small"' EXIT
mkdir -p "$small"/{bin,kit,crates/{a/src,compose_main,sheet_main,show_main}}
cp bin/compose bin/sheet bin/show bin/running.sh "$small/bin"
printf '# crates\npaper:\na: paper\nb: paper\ncompose_main: a\nsheet_main: a b\nshow_main: b\n' >"$small/crates.txt"
cat >"$small/kit/rt" <<'END'
#!/bin/sh
echo 'logic=proved functions=1'
[ ! -e ../../broken ] || { echo 'logic=not-proved'; exit 1; }
mkdir -p out
printf '#!/bin/sh\necho made\n' >"out/${PWD##*/}"
chmod +x "out/${PWD##*/}"
END
printf '#!/bin/sh\necho x86_64\n' >"$small/kit/uname"
chmod +x "$small/kit/rt" "$small/kit/uname"

# A program of the small repository must end with the status, print and say just these.
use() {
    local name=$1 program=$2 status=$3 wanted=$4 told=$5 answer
    answer=$(PATH=$small/kit:$PATH "$small/bin/$program" 2>"$small/said" </dev/null; echo $?)
    same "$program, $name" "$wanted$status, said '$told'" "$answer, said '$(<"$small/said")'"
}

# The uses of a program that has so many crates.
uses() {
    local program=$1 crate=$1_main building
    building="Building $crate: its $2 crates are proved, but for those unchanged since the last time; all take about 1 min."
    touch "$small/crates/a/src/lib.rt" "$small/broken"
    use 'first use, not proved' "$program" 2 '' "$building"$'\n'"Building $crate failed; $small/target/log/building-$crate.txt says why."
    rm "$small/broken"
    use 'first use' "$program" 0 $'made\n' "$building"
    use 'second use' "$program" 0 $'made\n' ''
    touch -d '1 minute' "$small/crates/a/src/lib.rt"
    use 'a newer source' "$program" 0 $'made\n' "$building"
}

uses compose 3
uses sheet 4
uses show 3

tell_counts
