# Turns cases of tests/engine_cases.c into one query of XQuery 3.1, which answers a line for each: passed, failed and why, left out, or fault,
# where the engine differs by a fault of its own that is known.
# Of each case it has the document of the marked nodes, what one text selects in it, and the marks expected.
#
# Variables: engine, its name for messages; letter, the lines whose text is asked, Q or V; most, the most cases asked, all if it is not set;
# whole, whether the text is a query by itself, as BaseX can be asked, and not a part of the one that is made.
#
# Cases without a root, of no text or of several texts are passed over. Left out are documents where two texts stand side by side, which are one
# text once they are read.

function inside(up,   i, made, before, here) {
    for (i = up + 1; i < nodes; i++) {
        if (parent[i] != up || substr(given, i + 1, 1) == "0")
            continue
        here = kind[i] == 1
        if (here && before)
            merged = 1
        before = here
        made = made (here ? "t" : "<" name[kind[i] - 2] ">" inside(i) "</" name[kind[i] - 2] ">")
    }
    return made
}

# The axis and the test with which a path goes on, which has a slash before it; without steps that stay where they are.
function next_step(path) {
    sub("^//", "/descendant-or-self::node()/", path)
    while (sub("^/(\\.|self::node\\(\\))/", "/", path) || sub("^/not\\(not\\(", "/", path))
        ;
    if (path ~ "^/descendant-or-self::node\\(\\)/(child::)?[^]/|). :[]+([]/|) []|$)") {
        sub("^/descendant-or-self::node\\(\\)/", "/", path)
        sub("^/(child::)?", "/descendant::", path)
    }
    path = substr(path, 2)
    if (match(path, "[]/|) []"))
        path = substr(path, 1, RSTART - 1)
    return path == ".." ? "parent::node(" : path ~ "::" ? path : "child::" path
}

# BaseX 9.7.2 takes /a[b/c]/b for /a/b[c]: has a step one predicate, a path that begins with the axis and the test of the step that comes next?
function asks_ahead(text,   i, sign, depth, open) {
    for (i = 1; i <= length(text); i++) {
        sign = substr(text, i, 1)
        if (sign == "[") {
            opened[++depth] = i
            joined[depth] = 0
        }
        if (sign == " ")
            joined[depth] = 1
        if (sign != "]")
            continue
        open = opened[depth--]
        if (!joined[depth + 1] && substr(text, open - 1, 1) != "]" && substr(text, i + 1, 1) == "/" &&
            next_step("/" substr(text, open + 1, 200)) == next_step(substr(text, i + 1, 200)))
            return 1
    }
    return 0
}

function put(call) {
    print (put_before++ ? ", " : "") call
}

BEGIN {
    print "declare function local:kept($all as node()*, $found as node()*) as xs:string {"
    print "  string-join(for $n in $all return"
    print "    if ($found intersect ($n/ancestor-or-self::node(), $n/descendant-or-self::node())) then \"1\" else \"0\", \"\") };"
    print "declare function local:judge($text as xs:string, $file as xs:string, $kept as xs:string, $expected as xs:string, $else as xs:string) as xs:string {"
    print "  if ($kept eq $expected) then \"passed\""
    print "  else concat($else, \": " engine " keeps \", $kept, \", the library \", $expected, \" of \", $file, \" by \", $text) };"
    print "string-join(("
}
{ rest = substr($0, 3) }
$1 == "C" { texts = 0 }
$1 == "N" { split(rest, words, " "); for (i in words) name[i - 1] = words[i] }
$1 == "P" { nodes = split(rest, words, " "); for (i in words) parent[i - 1] = words[i] }
$1 == "K" { split(rest, words, " "); for (i in words) kind[i - 1] = words[i] }
$1 == "G" { given = rest }
$1 == letter { texts++; text = rest }
$1 == "E" && texts == 1 && (most == 0 || tried < most) && substr(given, 1, 1) == "1" {
    merged = 0
    file = inside(0)
    if (merged) {
        put("\"left out\"")
        next
    }
    expected = ""
    for (i = 1; i <= nodes; i++)
        if (substr(given, i, 1) == "1")
            expected = expected substr(rest, i, 1)
    shown = text
    gsub(/\\n/, "\n", text); gsub(/\\r/, "\r", text); gsub(/\\t/, "\t", text)
    found = whole ? "xquery:eval(\"" text "\", map { \"\": $d })" : "$d/(" text ")"
    tried++
    put("let $d := parse-xml-fragment(\"" file "\") return local:judge(\"" shown "\", \"" file "\", local:kept(($d, $d//node()), " found "), \"" expected "\", \"" (whole && asks_ahead(shown) ? "fault" : "failed") "\")")
}
END { print "), \"&#10;\")" }
