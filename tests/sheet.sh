#!/usr/bin/env bash
# Tries the program that prints what a view shows, on real files: sheets counted by libxml2, each refusal, the edges of its input, and where it prints.
# The variable emulator says how programs for x86-64 are run here, and may be empty; tests/run builds sheet_cases and sheet_check.
set -u
: "${emulator?}"
cd "$(dirname "$0")/.." || exit 2

group=sheet
# shellcheck source=tests/counting.sh
. tests/counting.sh

root=$PWD
sheet=$root/bin/sheet
built=$root/target/tests
folder=$built/sheets
rm -rf "$folder"
mkdir -p "$folder/own files" || exit 2

# COUNTED BY LIBXML2: thousands of documents, many in each run.
$emulator "$built/sheet_cases" "$folder" >"$folder/cases" || exit 2
while read -r place; do
    "$sheet" <"$place/input" >"$place/printed"
done < <(sed -n 's/^D //p' "$folder/cases")
"$built/sheet_check" <"$folder/cases" >"$folder/log"
sed '$d' "$folder/log"
read -r passed failed < <(sed -n '$s/^sheet: \([0-9]*\) passed, \([0-9]*\) failed$/\1 \2/p' "$folder/log") || failed=1

cd "$folder/own files" || exit 2

# Standard input goes to the program; it must print just the third, end with the status and say nothing.
prints() {
    same "$1" "$3"$'\n'"status $2" "$("$sheet" 2>&1; echo "status $?")"
}

# The view //b with the names a, b and c, and these lines after the blank one.
shows() {
    local name=$1 wanted=$2
    shift 2
    prints "$name" 0 "$wanted" < <(printf '//b\na\nb\nc\n\n'; printf '%s\n' "$@")
}

# A sheet of the names a, b and c.
three() {
    printf 'a %s\nb %s\nc %s\nsum %s' "$@"
}

# So many lines with the same text.
lines() {
    yes "$2" | head -n "$1"
}

printf '<a><b/><c/></a>' >one.xml
printf '<a>x<b>y<c/></b>\n</a>\n' >two.xml
one=$(three '1 1 0' '1 1 0' '1 0 1' '3 2 1')
none=$(three '0 0 0' '0 0 0' '0 0 0' '0 0 0')

# DOCUMENTS.
shows 'one document' "$one" one.xml
shows 'two documents' "$(three '2 2 0' '2 2 0' '2 1 1' '6 5 1')" one.xml two.xml
shows 'a document twice' "$(three '2 2 0' '2 2 0' '2 0 2' '6 4 2')" one.xml one.xml
prints 'nothing kept' 0 "$(three '1 0 1' '1 0 1' '1 0 1' '3 0 3')" < <(printf '/b\na\nb\nc\n\none.xml\n')
prints 'no documents' 0 "$none" < <(printf '//b\na\nb\nc\n\n')
prints 'no names' 0 $'sum 0 0 0\nrefused 5 1' < <(printf '/\n\none.xml\n')
prints 'a last name without LF' 0 "$one" < <(printf '//b\na\nb\nc\n\none.xml')
printf '<refused/>' >refused.xml
prints 'names that look like a refusal' 0 $'refused 1 1 0\nview 0 0 0\nsum 1 1 0' < <(printf '/\nrefused\nview\n\nrefused.xml\n')

# REFUSED DOCUMENTS, each beside a good one.
refuses() {
    local name=$1 number=$2 file=$3
    shows "$name" "$one"$'\n'"refused $number 1" one.xml "$file"
}
printf '<a>' >cut.xml
printf '<a b="c"/>' >attribute.xml
printf '<d/>' >unknown.xml
: >empty.xml
{ printf '<a>'; times 4094 '<b/>'; printf '</a>'; } >full.xml
{ printf '<a>'; times 4095 '<b/>'; printf '</a>'; } >fuller.xml
{ printf '<a>'; times 32761 x; printf '</a>'; } >long.xml
{ printf '<a>'; times 32762 x; printf '</a>'; } >longer.xml
refuses 'not well-formed' 11 cut.xml
refuses 'an empty file' 11 empty.xml
refuses 'an attribute' 12 attribute.xml
refuses 'an unknown name' 5 unknown.xml
refuses '4,097 nodes' 10 fuller.xml
refuses '32,769 bytes' 1 longer.xml
shows '4,096 nodes' "$(three '1 1 0' '4094 4094 0' '0 0 0' '4095 4095 0')" full.xml
shows '32,768 bytes' "$(three '1 0 1' '0 0 0' '0 0 0' '1 0 1')" long.xml
same 'the size of these' '32768 32769' "$(stat -c %s long.xml longer.xml | paste -s -d ' ')"
shows 'all of these' "$none"$'\nrefused 1 1\nrefused 5 2\nrefused 10 1\nrefused 11 1\nrefused 12 1\nrefused 18 1' \
    no.xml attribute.xml unknown.xml cut.xml fuller.xml longer.xml unknown.xml

# SCRATCH: 4,096 nodes take 65,536 bytes for a height of 7, and 73,728 for one of 8; such a view has 6 and 7 brackets.
deep() {
    printf '//b%s%s\na\nb\nc\n\none.xml\nfull.xml\n' "$(times "$1" '[../b')" "$(times "$1" ']')"
}
prints 'all of the scratch' 0 "$(three '2 2 0' '4095 4095 0' '1 0 1' '4098 4097 1')" < <(deep 6)
prints 'scratch too short' 0 "$one"$'\nrefused 10 1' < <(deep 7)

# FILES THAT CAN'T BE READ.
refuses 'no such file' 18 no.xml
refuses 'a folder' 18 .
refuses 'a file in a file' 18 one.xml/one.xml
refuses 'an empty line' 18 ''
refuses 'CR at the end' 18 $'one.xml\r'
refuses 'white space before a name' 18 ' one.xml'
refuses 'reading fails' 18 /proc/self/mem
prints 'a byte 0' 0 "$none"$'\nrefused 18 1' < <(printf '//b\na\nb\nc\n\none.xml\0\n')
prints 'a byte 0 inside' 0 "$none"$'\nrefused 18 1' < <(printf '//b\na\nb\nc\n\none.xml\0two.xml')
ln -s loop.xml loop.xml
refuses 'a link to itself' 18 loop.xml
cp one.xml closed.xml
chmod a-r closed.xml
if [ "$(id -u)" -ne 0 ]; then
    refuses 'no permission' 18 closed.xml
fi
shows 'a path of 4,095 bytes' "$one" "$(times 2044 ./)one.xml"
refuses 'a path of 4,096 bytes' 18 "$(times 2044 ./)/one.xml"
refuses 'a path of 70,007 bytes' 18 "$(times 35000 ./)one.xml"
{ printf '//b\na\nb\nc\n\n'; lines 100 .; lines 100 longer.xml; lines 100 cut.xml; echo one.xml; } >input
same 'every file is closed' "$one"$'\nrefused 1 100\nrefused 11 100\nrefused 18 100' "$(ulimit -n 64; "$sheet" <input)"

# NAMES OF FILES.
for place in $'with spaces \303\251/\357\277\275 & <"\'$(x)\\n' $'with spaces \303\251/\377\200 & <"\'$(x)\\n'; do
    mkdir -p "$place"
    cp one.xml "$place/"$' \t.xml '
done
shows 'spaces and bytes over 127' "$one" $'with spaces \303\251/\357\277\275 & <"\'$(x)\\n/ \t.xml '
refuses 'bytes that are no UTF-8' 18 $'with spaces \303\251/\377\200 & <"\'$(x)\\n/ \t.xml '
shows 'a whole path' "$one" "$PWD/one.xml"
ln -s one.xml link.xml
shows 'a link' "$one" link.xml

# REFUSED VIEWS.
refuses_view() {
    prints "$1" 1 "refused view $2"
}
refuses_view 'no input' '3 0' </dev/null
refuses_view 'a view of 32,769 bytes' '1 0' < <(times 32768 ' '; printf '/\na\n\none.xml\n')
refuses_view 'a line of 100,000 bytes' '1 0' < <(times 100000 /)
refuses_view 'a list of 8,193 bytes' '1 0' < <(printf '/\n'; seq -f "$(times 60 a)%.0f" 100 226; times 64 b; printf '\n\none.xml\n')
refuses_view 'a name twice' '2 4' < <(printf '/\na\nb\na\n\none.xml\n')
refuses_view 'CR LF as the blank line' '2 2' < <(printf '/\na\n\r\none.xml\n')
refuses_view 'names that end with CR LF' '2 0' < <(printf '/\r\na\r\n\r\none.xml\n')
refuses_view 'a last name of the list without LF' '2 0' < <(printf '/\na')
refuses_view '257 names' '2 1280' < <(printf '/\n'; seq -f 'n%03.0f' 257; printf '\n')
refuses_view 'no query' '3 1' < <(printf '/]\na\n\none.xml\n')
refuses_view '65 brackets' '4 66' < <(printf '/a[%sb%s]\na\nb\n\none.xml\n' "$(times 64 '(')" "$(times 64 ')')")
refuses_view 'a name that is not in the list' '5 3' < <(printf '/a/d\na\n\none.xml\n')
refuses_view '4,097 items' '10 4097' < <(printf '%s\na\n\none.xml\n' "$(times 4096 /a)")
prints '4,096 items' 0 $'a 0 0 0\nsum 0 0 0' < <(printf '%s\na\n\n' "$(times 4095 /a)")
prints 'CR in the view' 0 "$one" < <(printf '//b\r\na\nb\nc\n\none.xml\n')
prints 'no blank line' 0 $'a 0 0 0\nsum 0 0 0' < <(printf '/\na\n')
prints 'a view alone' 0 'sum 0 0 0' < <(printf '/')

# THE LARGEST HEAD: a view of 32,768 bytes and a list of 8,192.
names=$(seq -f "$(times 60 a)%.0f" 100 227)
prints 'the largest view and list' 0 "${names//$'\n'/$' 0 0 0\n'} 0 0 0"$'\nsum 0 0 0\nrefused 5 1\nrefused 18 1' < <(
    times 32767 ' '
    printf '/\n%s\n\none.xml\nno.xml\n' "$names"
)

# 256 NAMES, and a document that has them all.
names=$(seq -f 'name-%.0f' 256)
{ printf '<name-1>'; sed '1d;s/.*/<&\/>/' <<<"$names"; printf '</name-1>'; } >names.xml
prints '256 names' 0 "$(sed -e 's/$/ 1 0 1/' -e 's/^name-1 .*/name-1 1 1 0/' -e 's/^name-256 .*/name-256 1 1 0/' <<<"$names")"$'\nsum 256 2 254' < <(
    printf '//name-256\n%s\n\nnames.xml\n' "$names"
)

# MANY DOCUMENTS.
many() {
    local count=$1
    prints "$2" 0 "$3" < <(printf '//b\na\nb\n\n'; lines "$count" small.xml)
}
printf '<a/>' >small.xml
many 65535 '65,535 documents' $'a 65535 0 65535\nb 0 0 0\nsum 65535 0 65535'
many 65537 '65,537 documents' $'a 65535 0 65535\nb 0 0 0\nsum 65535 0 65535\nrefused 10 2'

# PIPES.
same 'a reader that closes' 'a 1 1 0' "$(printf '//b\na\nb\nc\n\none.xml\n' | timeout 60 "$sheet" | head -n 1)"
same 'a full disk' 'status 2' "$(printf '/\n' | "$sheet" 2>/dev/null >/dev/full; echo "status $?")"
same 'a view that is refused while more is written' 'refused view 1 0' "$(yes | timeout 60 "$sheet")"
prints 'an input in pieces' 0 "$one" < <(
    for piece in '//' $'b\na\nb' $'\nc\n' $'\no' 'ne.x' $'ml\n'; do
        printf '%s' "$piece"
        sleep 0.05
    done
)
same 'an argument' $'usage: sheet <input\nstatus 2' "$("$sheet" one.xml 2>&1 </dev/null; echo "status $?")"

# A TERMINAL: standard error tells how many documents there were, each hundred.
{ printf '//b\na\nb\nc\n\n'; lines 250 one.xml; } >input
said=$(SHELL=/bin/sh script -qec "'$sheet' <input >printed" /dev/null </dev/null)
same 'the count on a terminal' $'\r100 documents\r200 documents' "${said:0:28}"
same 'what is printed beside it' "$(three '250 250 0' '250 250 0' '250 0 250' '750 500 250')" "$(<printed)"
same 'no count elsewhere' '' "$(SHELL=/bin/sh script -qec "'$sheet' <input >printed 2>said" /dev/null </dev/null; cat said)"

cd "$root" || exit 2
tell_counts
