#!/usr/bin/env bash
# Tries the program that shows what a query keeps of a file: kept files held to libxml2, the examples of docs/VIEWS.md, each refusal
# and their order, the edges of its input, and where it prints.
# The variable emulator says how programs for x86-64 are run here, and may be empty; tests/run builds show_cases and show_check.
set -u
: "${emulator?}"
cd "$(dirname "$0")/.." || exit 2

group=show
# shellcheck source=tests/counting.sh
. tests/counting.sh

show=$PWD/bin/show
built=$PWD/target/tests
folder=$built/shown
rm -rf "$folder"
mkdir -p "$folder" || exit 2

# KEPT BY LIBXML2: the status stands behind what is printed of each input.
$emulator "$built/show_cases" "$folder" >"$folder/cases" || exit 2
while read -r input; do
    { "$show" <"$input"; printf '%s' "$?"; } >"$input.printed"
done < <(sed -n 's/^D //p' "$folder/cases")
"$built/show_check" <"$folder/cases" >"$folder/log"
judged=$?
sed '$d' "$folder/log"
read -r passed failed < <(sed -n '$s/^show: \([0-9]*\) passed, \([0-9]*\) failed$/\1 \2/p' "$folder/log") || failed=1
[ "$failed" -ne 0 ] || same 'files, nothing and refusals are among them' 0 "$judged"

# Standard input goes to the program; it must print just the third, with no line put in or left out, end with the status and say nothing.
prints() {
    same "$1" "$3status $2" "$("$show" 2>&1; echo "status $?")"
}

# A file that is shown has an LF behind it; a refusal is a line.
shows() {
    prints "$1" 0 "$2"$'\n'
}
refuses() {
    prints "$1" 1 "refused $2"$'\n'
}

# The query with the names a, b and c, and this text.
asks() {
    printf '%s\na\nb\nc\n\n%s' "$1" "$2"
}

# THE ORDER OF docs/VIEWS.md: its first block is the file, and what each command prints is the block behind it, or nothing.
ln -s "$PWD/bin" "$folder/bin"
awk '
    /^## / { inside = $0 == "## What a view shows of one file" }
    !inside || !/^    / { within = 0; next }
    { if (!within) count++; within = 1; print substr($0, 5) >(folder "/block" count) }' folder="$folder" docs/VIEWS.md
mv "$folder/block1" "$folder/order.xml"
same "the blocks of docs/VIEWS.md" '(printf <order> (printf (printf <order>' "$(head -qn 1 "$folder"/block? | sed 's/ .*//;s/>.*/>/' | paste -s -d ' ')"
walks() {
    same "docs/VIEWS.md, block $1" "$2" "$(cd "$folder" && bash "block$1"; echo "status $?")"
}
walks 2 "$(<"$folder/block3")"$'\nstatus 0'
walks 4 'status 0'
walks 5 "$(<"$folder/block6")"$'\nstatus 0'

# WHAT IS SHOWN.
shows 'a part' '<a><b><c></c></b></a>' < <(asks '/a/b[c]' '<a>x<b><c/></b><b/></a>')
shows 'everything' '<a>x<b><c></c></b></a>' < <(asks / $'<?xml version="1.0"?>\n<a >x<b><c/></b ></a>\n')
shows 'line feeds' $'<a>\n\n<b>\n</b>\n\n</a>' < <(asks / $'<a>\n\n<b>\n</b>\n\n</a>\n\n')
shows 'a text that begins with a line feed' '<a></a>' < <(asks / $'\n\n<a/>')
shows 'carriage returns' $'<a>\r\n\r<b></b></a>' < <(asks '/ ' $'<a>\r\n\r<b/></a>')
shows 'bytes over 127' $'<a>\303\251\360\237\230\200<b></b></a>' < <(asks / $'<a>\303\251\360\237\230\200<b/></a>')
shows 'signs of the shell and of printf' "<a>%s \\n \$(x) \`x\` ' \" *</a>" < <(asks / "<a>%s \\n \$(x) \`x\` ' \" *</a>")
shows 'references' '<a>&lt;&amp;&gt;</a>' < <(asks / '<a>&lt;&amp;&gt;</a>')
shows 'texts that come together' '<a>]]&gt;</a>' < <(asks '/a/text()' '<a>]]<b/>></a>')
shows 'a text that looks like a refusal' '<a>refused run 1 0</a>' < <(asks / '<a>refused run 1 0</a>')
shows 'CR in the query' '<a></a>' < <(printf '/a\r\na\n\n<a/>')
prints 'nothing kept' 0 '' < <(asks '/b' '<a><b/></a>')
prints 'nothing above the root' 0 '' < <(asks '/..' '<a><b/></a>')
shows 'the same by a predicate' '<a><b></b></a>' < <(asks '//b[not(c)]' '<a><b/><b><c/></b></a>')
composed=$(printf '/a[not(b/c)]\n/a/b/a\na\nb\nc\n' | bin/compose | head -n 1)
shows "what bin/compose prints" '<a><b><a></a></b></a>' < <(asks "$composed" '<a><b><c>x</c></b><b><a/></b></a>')
composed=$(printf '/a[not(b/c)]\n/a/b/a\na\nb\nc\n' | bin/compose --lean | head -n 1)
shows "what bin/compose --lean prints" '<a><b><a></a></b></a>' < <(asks "$composed" '<a><b><c>x</c></b><b><a/></b></a>')

# REFUSALS, each alone.
refuses 'no query' 'query 3 3' < <(asks '/a[' '<a/>')
refuses 'an unknown name in the query' 'query 5 1' < <(asks '/d' '<a/>')
refuses '65 brackets' 'query 4 66' < <(asks "/a[$(times 64 '(')b$(times 64 ')')]" '<a/>')
refuses '4,097 items' 'query 10 4097' < <(asks "$(times 4096 /a)" '<a/>')
refuses 'a query of 32,769 bytes' 'query 1 0' < <(asks "$(times 32768 ' ')/" '<a/>')
refuses 'a name twice' 'query 2 4' < <(printf '/\na\nb\na\n\n<a/>')
refuses 'CR LF as the blank line' 'query 2 2' < <(printf '/\na\n\r\n<a/>')
refuses 'a list of 8,193 bytes' 'query 1 0' < <(printf '/\n'; seq -f "$(times 60 a)%.0f" 100 226; times 64 b; printf '\n\n<a/>')
refuses 'a text that is cut' 'text 11 3' < <(asks / '<a>')
refuses 'an attribute' 'text 12 3' < <(asks / '<a b="c"/>')
refuses 'an unknown name in the text' 'text 5 4' < <(asks / '<a><d/></a>')
refuses 'a byte 0' 'text 11 3' < <(printf '/\na\n\n<a>\0</a>')
refuses 'bytes that are no UTF-8' 'text 11 3' < <(asks / $'<a>\377</a>')
refuses 'a text of 32,769 bytes' 'text 1 0' < <(asks / "<a>$(times 32762 x)</a>")
refuses '4,097 nodes' 'text 10 4097' < <(asks / "<a>$(times 4095 '<b/>')</a>")
refuses '81,921 bytes' 'input 1 0' < <(times 81921 /)

# A RUN of 4,096 nodes has scratch for a height of 65: that of 64 operands in a row.
full="<a>$(times 4094 '<b/>')</a>"
row() {
    printf '//b[%s../b]' "$(times $(($1 - 1)) '../b and ')"
}
shows '64 operands on 4,096 nodes' "<a>$(times 4094 '<b></b>')</a>" < <(asks "$(row 64)" "$full")
refuses '65 operands on 4,096 nodes' 'run 10 548864' < <(asks "$(row 65)" "$full")
shows '65 operands on fewer nodes' '<a><b></b></a>' < <(asks "$(row 65)" '<a><b/></a>')

# THEIR ORDER.
refuses 'the input first' 'input 1 0' < <(asks '/[' "<a>$(times 81920 x)")
refuses 'the query before the text' 'query 3 1' < <(asks '/[' '<a>')
refuses 'the names before the text' 'query 2 0' < <(printf '/\n*\n\n<a>')
refuses 'the text before a run of nothing' 'text 11 3' < <(asks /b '<a>')
refuses 'the text before a run that is too high' 'text 10 4097' < <(asks "$(row 65)" "<a>$(times 4095 '<b/>')</a>")
refuses 'the run before what it would keep' 'run 10 548864' < <(asks "/c|$(row 65)" "$full")

# BLANK LINES AND WHAT IS MISSING.
refuses 'no input' 'query 3 0' </dev/null
refuses 'a query alone' 'text 11 0' < <(printf '/')
refuses 'no blank line' 'text 11 0' < <(printf '/\na\n')
refuses 'nothing behind the blank line' 'text 11 0' < <(printf '/\na\n\n')
refuses 'no names' 'text 5 1' < <(printf '/\n\n<a/>')
refuses 'a last name without LF' 'query 2 0' < <(printf '/\na')
refuses 'the text where the names belong' 'query 2 2' < <(printf '/\na\n<a/>\n\n<a/>')

# THE LARGEST: each part as long as it can be, and all of the scratch.
shows '32,768 bytes' "<a>$(times 32761 x)</a>" < <(asks / "<a>$(times 32761 x)</a>")
shows 'a file of nearly twice the bytes' "<a>$(times 4094 '<b></b>')</a>" < <(asks / "$full")
name=$(times 64 n)
shows 'long names in empty elements' "<$name>$(times 480 "<$name></$name>")</$name>" < <(printf '/\n%s\n\n<%s>%s</%s>' "$name" "$name" "$(times 480 "<$name/>")" "$name")
shows '64 brackets on 4,096 nodes' "<a>$(times 4094 '<b></b>')</a>" < <(asks "//b$(times 64 '[../b')$(times 64 ']')" "$full")
prints '64 brackets of not on 4,096 nodes' 0 '' < <(asks "//b[$(times 63 'not(')..$(times 63 ')')]" "$full")
refuses '81,920 bytes' 'query 1 0' < <(times 81920 /)
names=$(seq -f "$(times 60 a)%.0f" 100 227)
first=${names%%$'\n'*}
shows 'the largest of each' "<$first>$(times 32637 x)</$first>" < <(printf '%s/\n%s\n\n<%s>%s</%s>' "$(times 32767 ' ')" "$names" "$first" "$(times 32637 x)" "$first")

# PIPES.
same 'a reader that closes' '<' "$(asks / '<a/>' | timeout 60 "$show" | head -c 1)"
same 'a full disk' 'status 2' "$(asks / '<a/>' | "$show" 2>/dev/null >/dev/full; echo "status $?")"
same 'a longer input while more is written' 'refused input 1 0' "$(yes | timeout 60 "$show")"
shows 'an input in pieces' '<a></a>' < <(
    for piece in '/' $'a\na\n' $'\n<' 'a/' $'>\n'; do
        printf '%s' "$piece"
        sleep 0.05
    done
)
same 'an argument' $'usage: show <input\nstatus 2' "$("$show" one.xml 2>&1 </dev/null; echo "status $?")"

tell_counts
