/* Every refusal of every call at its edges, in the order of docs/SCOPE.md, with what it may and may not write. */
#define _GNU_SOURCE
#include "halyardfig.h"
#include "making.h"
#include "offering.h"

#include <stdio.h>
#include <stdlib.h>
#include <string.h>
#include <sys/mman.h>

enum { LONGEST = 1 << 17, BUILT_MOST = 4 };
enum { LAST_KIND = HALYARDFIG_KIND_ELEMENT + HALYARDFIG_NAMES - 1 };

/* Strings built for one call. */
static char built[BUILT_MOST][LONGEST];
static unsigned built_count;

/* Ends a call: it is judged, and the strings built for it are given back. */
static void expect(const char *what, uint64_t answer, uint64_t expected, const size_t *written)
{
    judge_offered(what, answer, expected, written);
    built_count = 0;
}

/* Reading. */

static const char abcd[] = "a\nb\nc\nd\n";

static void read_by(const char *what, uint32_t version, const void *text, size_t text_len, const void *names,
                    size_t names_len, size_t room, uint64_t expected)
{
    const uint8_t *our_text = offer(text, text_len), *our_names = offer(names, names_len);
    uint32_t *out = offer(NULL, room * sizeof *out);
    uint64_t answer = halyardfig_read(our_text, text_len, version, our_names, names_len, out, room);
    expect(what, answer, expected, (size_t[]){0, 0, halyardfig_value(answer) * sizeof *out});
}

/* The same by both versions. */
static void read_bytes(const char *what, const void *text, size_t text_len, const void *names, size_t names_len,
                       size_t room, uint64_t expected)
{
    read_by(what, HALYARDFIG_XPATH_1, text, text_len, names, names_len, room, expected);
    read_by(what, HALYARDFIG_XPATH_2, text, text_len, names, names_len, room, expected);
}

static void read_is(const char *text, const char *names, size_t room, uint64_t expected)
{
    read_bytes(text, text, strlen(text), names, strlen(names), room, expected);
}

/* Other answers by the two versions. */
static void read_versions_are(const char *text, const char *names, size_t room, uint64_t first, uint64_t second)
{
    read_by(text, HALYARDFIG_XPATH_1, text, strlen(text), names, strlen(names), room, first);
    read_by(text, HALYARDFIG_XPATH_2, text, strlen(text), names, strlen(names), room, second);
}

/* Appends one string so many times. */
static char *add(char *text, const char *part, size_t times)
{
    for (size_t i = 0; i < times; i++)
        strcat(text, part);
    return text;
}

/* An empty string that no other string of the same call shares. */
static char *fresh(void)
{
    if (built_count == BUILT_MOST)
        abort();
    char *text = built[built_count++];
    text[0] = 0;
    return text;
}

static void read_lengths(void)
{
    static uint8_t text[TEXT_ROOM + 1], names[LIST_ROOM + 1];
    enum { LINE = HALYARDFIG_NAME_BYTES + 1, LINES = (LIST_ROOM - 2) / LINE };
    _Static_assert(LINES * LINE + 2 == LIST_ROOM, "the longest names and one short name fill the list");
    memset(text, ' ', sizeof text);
    text[TEXT_ROOM - 1] = '/';
    read_bytes("longest text", text, TEXT_ROOM, abcd, strlen(abcd), 1, 1);
    read_bytes("text too long", text, TEXT_ROOM + 1, abcd, strlen(abcd), 1, REFUSED(1, 0));
    read_bytes("long text before bad list", text, TEXT_ROOM + 1, "1", 1, 1, REFUSED(1, 0));
    for (unsigned i = 0; i < LINES; i++) {
        memset(names + i * LINE, 'n', HALYARDFIG_NAME_BYTES);
        names[i * LINE] = (uint8_t)('A' + i / 26);
        names[i * LINE + 1] = (uint8_t)('a' + i % 26);
        names[i * LINE + HALYARDFIG_NAME_BYTES] = '\n';
    }
    memcpy(names + LINES * LINE, "a\n", 2);
    read_bytes("longest list", "/a", 2, names, LIST_ROOM, 2, 2);
    read_bytes("list too long", "/a", 2, names, LIST_ROOM + 1, 2, REFUSED(1, 0));
    read_bytes("long list before bad text", "", 0, names, LIST_ROOM + 1, 2, REFUSED(1, 0));
}

static void read_lists(void)
{
    static const struct {
        const char *names;
        unsigned place;
    } bad[] = {
        {"1a\n", 0},        {"-a\n", 0},
        {".\n", 0},         {"\n", 0},
        {"a\n\n", 2},       {"a\nb", 2},
        {"a", 0},           {"a b\n", 0},
        {"a\r\n", 0},       {" a\n", 0},
        {"a\nb\na\n", 4},   {"a\na\n1\n", 2},
        {"a\n1\na\n", 2},   {"a\na", 2},
        {"ab\na\nab\n", 5}, {"a\n\xC3\xA9\n", 2},
        {"a:b\n", 0},       {"a\nb\nc\nb\nb\n", 6},
    };
    for (size_t i = 0; i < sizeof bad / sizeof bad[0]; i++)
        read_is("/", bad[i].names, 1, REFUSED(2, bad[i].place));
    read_is("/a", "a\nab\naa\n_\nA\na.\na-\na_\na1\n", 2, 2);
    read_is("/", "", 1, 1);
    read_is("/a", "", 2, REFUSED(5, 1));
    read_is("bad", "1\n", 0, REFUSED(2, 0));
    read_is("/a", add(add(fresh(), "a", HALYARDFIG_NAME_BYTES), "\n", 1), 2, REFUSED(5, 1));
    read_is("/a", add(add(fresh(), "a", HALYARDFIG_NAME_BYTES + 1), "\n", 1), 2, REFUSED(2, 0));
    struct list list;
    struct dice dice = {1};
    make_list(&dice, &list, HALYARDFIG_NAMES);
    read_bytes("all names", "/", 1, list.bytes, list.length, 1, 1);
    memcpy(list.bytes + list.length, "zz\n", 3);
    read_bytes("one name too many", "/", 1, list.bytes, list.length + 3, 1, REFUSED(2, list.length));
}

static void read_syntax(void)
{
    static const struct {
        const char *text;
        unsigned number, value;
    } texts[] = {
        {"", 3, 0},
        {" ", 3, 1},
        {"a", 3, 0},
        {"(/a)", 3, 0},
        {"|/a", 3, 0},
        {"//", 3, 2},
        {"// ", 3, 3},
        {"///a", 3, 2},
        {"/ /a", 3, 2},
        {"/a/", 3, 3},
        {"/a//", 3, 4},
        {"/a|", 3, 3},
        {"/a||/b", 3, 3},
        {"/a b", 3, 3},
        {"/a[", 3, 3},
        {"/a[]", 3, 3},
        {"/a]", 3, 2},
        {"/a)", 3, 2},
        {"/a(", 3, 2},
        {"/a[b", 3, 4},
        {"/a[b]]", 3, 5},
        {"/a[b or]", 3, 7},
        {"/a[b or ]", 3, 8},
        {"/a[b c]", 3, 5},
        {"/a[b)]", 3, 4},
        {"/a[(b]", 3, 5},
        {"/a[not(b]", 3, 8},
        {"/a[not b]", 3, 7},
        {"/a[not()]", 3, 7},
        {"/a[()]", 3, 4},
        {"/not(b)", 3, 4},
        {"/a[b/not(c)]", 3, 8},
        {"/a[not::b]", 3, 6},
        {"/a[self::not(b)]", 3, 12},
        {"/a:b", 3, 2},
        {"/a::b", 3, 2},
        {"/child::", 3, 8},
        {"/child::child::a", 3, 13},
        {"/child::.", 3, 8},
        {"/child::[a]", 3, 8},
        {"/self::node(", 3, 12},
        {"/node()()", 3, 7},
        {"/node(a)", 3, 6},
        {"/a/node", 5, 3},
        {"/...", 3, 3},
        {"/.a", 3, 2},
        {"/**", 3, 2},
        {"/a*", 3, 2},
        {"/a *", 3, 3},
        {"/1", 3, 1},
        {"/@a", 3, 1},
        {"/a[1]", 3, 3},
        {"/a[b=c]", 3, 4},
        {"/a[b|c]", 3, 4},
        {"/a\r", 0, 2},
        {"/a and", 3, 3},
        {"/a and /b", 3, 3},
        {"/ and", 5, 2},
        {"/a/(b)", 3, 3},
        {"/a[/b]", 3, 3},
        {"/a[//b]", 3, 3},
        {"/a[(b)[c]]", 3, 6},
        {"/a[(b)/c]", 3, 6},
        {"/a[(b)(c)]", 3, 6},
        {"/a[not(b)[c]]", 3, 9},
        {"/a[not(b)/c]", 3, 9},
        {"/a[not(b)(c)]", 3, 9},
        {"/attribute::a", 3, 10},
        {"/a[child: :b]", 3, 8},
        {"/a/attribute::b", 3, 12},
        {"/a/namespace::b", 3, 12},
        {"/a/following-siblings::b", 3, 21},
        {"/a/follow::b", 3, 9},
        {"/a/descendant-or::b", 3, 16},
        {"/a/Following::b", 3, 12},
        {"/a/following - sibling::b", 3, 13},
        {"/following::", 3, 12},
        {"/preceding::following::a", 3, 21},
        {"/comment()", 3, 8},
        {"/a[count(b)]", 3, 8},
        {"/\xC3\xA9", 3, 1},
        {"/a[not(b) not(c)]", 3, 10},
        {"/a[not (b) or]", 3, 13},
        {"/a['b']", 3, 3},
        {"/$a", 3, 1},
        {"/e", 5, 1},
        {"/a/e/f", 5, 3},
        {"/a[and]", 5, 3},
        {"/a[or or or]", 5, 3},
        {"/and[and and or or or and or]", 5, 1},
        {"/a[and b]", 3, 7},
        {"/a[b][e][(]", 3, 10},
        {"/a[b or or]", 5, 8},
        {"/a[not]", 5, 3},
        {"/a[not/b]", 5, 3},
        {"/self::node", 5, 7},
        {"/a.b", 5, 1},
        {"/A", 5, 1},
        {"/aa", 5, 1},
        {"/self", 5, 1},
        {"/a[not and b]", 5, 3},
        {"/e[", 3, 3},
        {"/e/", 3, 3},
        {"/e|/f g", 3, 6},
        {"/", 0, 1},
        {"/|/", 0, 2},
        {" / | / ", 0, 2},
        {"/a", 0, 2},
        {"//a", 0, 3},
        {"/a//b", 0, 4},
        {"/.", 0, 2},
        {"/..", 0, 2},
        {"/*", 0, 2},
        {"/*[*]", 0, 4},
        {"/text()[b]", 0, 4},
        {"/ text ( ) [ b ]", 0, 4},
        {"/a[.and .]", 0, 7},
        {"/a[..or ..]", 0, 7},
        {"/a[.and.]", 3, 4},
        {"/a[b and c or d]", 0, 10},
        {"/a[(b)]", 0, 4},
        {"/a[not(b)]", 0, 5},
        {"/a[not (b)]", 0, 5},
        {"/a[.//b]", 0, 6},
        {"/a[self ::\tb]", 0, 4},
        {"/a[b][c][d]", 0, 8},
        {"//a\n|\n//b", 0, 6},
        {"\r/\ra\r[\rself\r::\rb\rand\rnot\r(\rnode\r(\r)\r)\r]\r|\r//\r*\r", 0, 11},
        {"/a\r\n/b\r\n", 0, 3},
        {"/a\r\nb", 3, 4},
        {"/a[not(not(b))]", 0, 6},
        {"/descendant-or-self::node()/a", 0, 3},
        {"/a/preceding::b", 0, 3},
        {"/descendant::a", 0, 2},
        {"/ancestor::*[following-sibling::b]", 0, 4},
        {"/preceding-sibling :: text ( ) [ following\t::\nnode() ]", 0, 4},
        {"/following", 5, 1},
        {"/a[descendant or ancestor]", 5, 3},
        {"/a/following-sibling::e", 5, 22},
    };
    for (size_t i = 0; i < sizeof texts / sizeof texts[0]; i++)
        read_is(texts[i].text, abcd, ITEM_ROOM, REFUSED(texts[i].number, texts[i].value));
    read_bytes("a zero byte", "/a\0", 3, abcd, strlen(abcd), 9, REFUSED(3, 2));
}

/* `/a[` and `(` so often that no further bracket may open; and the length of that. */
enum { ROUND = HALYARDFIG_NESTING - 1, OPEN = 3 + ROUND };

static char *all_open(void)
{
    return add(add(fresh(), "/a[", 1), "(", ROUND);
}

static void read_brackets(void)
{
    read_is(add(add(add(all_open(), "b", 1), ")", ROUND), "]", 1), abcd, 9, 4);
    read_is(add(all_open(), "b", 1), abcd, 9, REFUSED(3, OPEN + 1));
    read_is(add(all_open(), "(", 1), abcd, 9, REFUSED(4, OPEN));
    read_is(add(all_open(), "(((((( 1", 1), abcd, 9, REFUSED(4, OPEN));
    read_is(add(all_open(), "b[c]", 1), abcd, 9, REFUSED(4, OPEN + 1));
    read_is(add(all_open(), "e[c]", 1), abcd, 9, REFUSED(4, OPEN + 1));
    read_is(add(all_open(), "not(b", 1), abcd, 9, REFUSED(4, OPEN + 3));
    read_is(add(all_open(), "not (b", 1), abcd, 9, REFUSED(4, OPEN + 4));
    read_is(add(all_open(), "b(", 1), abcd, 9, REFUSED(3, OPEN + 1));
    read_is(add(all_open(), "[", 1), abcd, 9, REFUSED(3, OPEN));
    read_is(add(all_open(), "b.(", 1), abcd, 9, REFUSED(3, OPEN + 2));
    read_is(add(all_open(), "] (", 1), abcd, 9, REFUSED(3, OPEN));
    read_is(add(add(add(all_open(), "node()", 1), ")", ROUND), "]", 1), abcd, 9, 4);
    read_is(add(add(add(all_open(), "b) and (c", 1), ")", ROUND), "]", 1), abcd, 9, 7);
    enum { DEEPEST = HALYARDFIG_NESTING, OVER = HALYARDFIG_NESTING + 1 };
    read_is(add(add(add(fresh(), "/a", 1), "[a", DEEPEST), "]", DEEPEST), abcd, 999, 2 + 2 * DEEPEST);
    read_is(add(add(add(fresh(), "/a", 1), "[a", OVER), "]", OVER), abcd, 999, REFUSED(4, 2 + 2 * DEEPEST));
}

/* 02, 2026-08: what only version 2 reads, where a word is a name, and versions that there are not. */
static void read_versions(void)
{
    static const char names[] = "a\nb\nunion\n";
    static const struct {
        const char *text;
        uint64_t first, second;
    } texts[] = {
        {"/.[a]", REFUSED(3, 2), 4},
        {"/ . [ a ]", REFUSED(3, 4), 4},
        {"/..[a]", REFUSED(3, 3), 4},
        {"/a[.[b]]", REFUSED(3, 4), 6},
        {"/a/..[b][a]", REFUSED(3, 5), 7},
        {"/a[.[b]/..[a]]", REFUSED(3, 4), 9},
        {"/a[not(.[b])]", REFUSED(3, 8), 7},
        {"/.[", REFUSED(3, 2), REFUSED(3, 3)},
        {"/.[a", REFUSED(3, 2), REFUSED(3, 4)},
        {"/.[e]", REFUSED(3, 2), REFUSED(5, 3)},
        {"/.[]", REFUSED(3, 2), REFUSED(3, 3)},
        {"/a union /b", REFUSED(3, 3), 4},
        {"/a union//b", REFUSED(3, 3), 5},
        {"//*union/", REFUSED(3, 3), 4},
        {"/a[b]union/b", REFUSED(3, 5), 6},
        {"/.union/..", REFUSED(3, 2), 4},
        {"/..union/", REFUSED(3, 3), 3},
        {"/node() union /text()", REFUSED(3, 8), 4},
        {"/ union /b", 3, 3},
        {"/ union /", REFUSED(3, 9), REFUSED(3, 9)},
        {"/union", 2, 2},
        {"/union union /union", REFUSED(3, 7), 4},
        {"/ union union //union", REFUSED(3, 8), 5},
        {"/ union union union", REFUSED(3, 8), REFUSED(3, 14)},
        {"/a union", REFUSED(3, 3), REFUSED(3, 8)},
        {"/a union a", REFUSED(3, 3), REFUSED(3, 9)},
        {"/a union | /b", REFUSED(3, 3), REFUSED(3, 9)},
        {"/a | union /b", REFUSED(3, 5), REFUSED(3, 5)},
        {"/a unions /b", REFUSED(3, 3), REFUSED(3, 3)},
        {"/a Union /b", REFUSED(3, 3), REFUSED(3, 3)},
        {"/a and /b", REFUSED(3, 3), REFUSED(3, 3)},
        {"/a/union/b", 4, 4},
        {"/a/child::union", 3, 3},
        {"/a[union]", 4, 4},
        {"/a[a union b]", REFUSED(3, 5), REFUSED(3, 5)},
        {"/a[. union b]", REFUSED(3, 5), REFUSED(3, 5)},
        {"/a[(a) union b]", REFUSED(3, 7), REFUSED(3, 7)},
        {"/a[a | b]", REFUSED(3, 5), REFUSED(3, 5)},
        {"/a[union or union]", 7, 7},
        {"union", REFUSED(3, 0), REFUSED(3, 0)},
    };
    for (size_t i = 0; i < sizeof texts / sizeof texts[0]; i++)
        read_versions_are(texts[i].text, names, ITEM_ROOM, texts[i].first, texts[i].second);
    enum { DEEPEST = HALYARDFIG_NESTING, OVER = DEEPEST + 1 };
    read_versions_are(add(add(add(fresh(), "/.", 1), "[.", DEEPEST), "]", DEEPEST), abcd, 999, REFUSED(3, 2),
                      2 + 2 * DEEPEST);
    read_versions_are(add(add(add(fresh(), "/.", 1), "[.", OVER), "]", OVER), abcd, 999, REFUSED(3, 2),
                      REFUSED(4, 2 + 2 * DEEPEST));
    static const uint32_t others[] = {0, 3, 4, 257, 258, 65537, 65538, UINT32_MAX};
    for (size_t i = 0; i < sizeof others / sizeof others[0]; i++) {
        read_by("another version", others[i], "/a", 2, abcd, strlen(abcd), 2, REFUSED(1, 0));
        read_by("another version before a bad list", others[i], "/a", 2, "1", 1, 2, REFUSED(1, 0));
        read_by("another version before a bad text", others[i], "[", 1, abcd, strlen(abcd), 2, REFUSED(1, 0));
    }
}

static void read_rooms(void)
{
    read_is("/a", abcd, 0, REFUSED(10, 2));
    read_is("/a", abcd, 1, REFUSED(10, 2));
    read_is("/a", abcd, 2, 2);
    read_is("/a[b]", abcd, 3, REFUSED(10, 4));
    read_is("/e", abcd, 0, REFUSED(5, 1));
    enum { SHORT = TEXT_ROOM / 2, SHORTS = TEXT_ROOM / 3, MANY = 8000, ROOM = ITEM_ROOM + 1000 };
    read_is(add(fresh(), "/a", ITEM_ROOM - 1), abcd, ITEM_ROOM, ITEM_ROOM);
    read_is(add(fresh(), "/a", ITEM_ROOM - 1), abcd, ROOM, ITEM_ROOM);
    read_is(add(fresh(), "/a", ITEM_ROOM - 1), abcd, ITEM_ROOM - 1, REFUSED(10, ITEM_ROOM));
    read_is(add(fresh(), "/a", ITEM_ROOM), abcd, ROOM, REFUSED(10, ITEM_ROOM + 1));
    read_is(add(fresh(), "/a", SHORT), abcd, ROOM, REFUSED(10, SHORT + 1));
    read_is(add(add(fresh(), "//.", SHORTS), " ", TEXT_ROOM % 3), abcd, ROOM, REFUSED(10, 2 * SHORTS + 1));
    read_is(add(add(fresh(), "/a", 1), "[a]", MANY), abcd, ROOM, REFUSED(10, 2 + 2 * MANY));
    read_is(add(add(fresh(), "/", 1), "|/", MANY), abcd, 2 * ROOM, REFUSED(10, MANY + 1));
}

/* Queries in memory. */

static void print_form_is(bool brief, const char *what, const uint32_t *query, size_t count, const char *names,
                          size_t room, uint64_t expected)
{
    const uint32_t *our_query = offer(query, count * sizeof *query);
    const uint8_t *our_names = offer(names, strlen(names));
    uint8_t *out = offer(NULL, room);
    uint64_t answer = (brief ? halyardfig_print : halyardfig_print_long)(our_query, count, our_names, strlen(names),
                                                                         out, room);
    expect(what, answer, expected, (size_t[]){0, 0, halyardfig_value(answer)});
}

/* The long form; what is refused whatever the room is refused in the short form too. */
static void print_is(const char *what, const uint32_t *query, size_t count, const char *names, size_t room,
                     uint64_t expected)
{
    uint64_t refused = halyardfig_refused(expected);
    print_form_is(false, what, query, count, names, room, expected);
    if (refused != 0 && refused != HALYARDFIG_REFUSED_ROOM)
        print_form_is(true, what, query, count, names, room, expected);
}

/* Which of the two compositions is tried. */
static bool lean;

static void compose_is(const char *what, const uint32_t *outer, size_t outer_count, const uint32_t *inner,
                       size_t inner_count, size_t room, uint64_t expected)
{
    const uint32_t *our_outer = offer(outer, outer_count * sizeof *outer);
    const uint32_t *our_inner = offer(inner, inner_count * sizeof *inner);
    uint32_t *out = offer(NULL, room * sizeof *out);
    uint64_t answer = lean ? halyardfig_compose_lean(our_outer, outer_count, our_inner, inner_count, out, room)
                           : halyardfig_compose(our_outer, outer_count, our_inner, inner_count, out, room);
    expect(what, answer, expected, (size_t[]){0, 0, halyardfig_value(answer) * sizeof *out});
}

struct lengths {
    size_t parent, kind, given, marks, scratch;
};

/* The other engine refuses the same, save 10, which it never does. */
static void follow_is(const char *what, const uint32_t *query, size_t count, const struct table *table,
                      struct lengths lengths, uint64_t expected)
{
    if (!can_follow(query, count, lengths.parent))
        return;
    const uint32_t *our_query = offer(query, count * sizeof *query);
    const uint16_t *parent = offer(table->parent, lengths.parent * sizeof *parent);
    const uint16_t *kind = offer(table->kind, lengths.kind * sizeof *kind);
    const uint8_t *given = offer(table->marks, lengths.given);
    uint8_t *marks = offer(NULL, lengths.marks);
    uint64_t answer = halyardfig_follow(our_query, count, parent, lengths.parent, kind, lengths.kind, given,
                                        lengths.given, marks, lengths.marks);
    bool short_of_room = halyardfig_refused(expected) == HALYARDFIG_REFUSED_ROOM;
    if (short_of_room)
        tally(halyardfig_refused(answer) == 0, "%s, followed: refused", what);
    expect(what, answer, short_of_room ? answer : expected, (size_t[]){0, 0, 0, 0, lengths.marks});
}

static void run_is(const char *what, const uint32_t *query, size_t count, const struct table *table,
                   struct lengths lengths, uint64_t expected, size_t scratch_used)
{
    const uint32_t *our_query = offer(query, count * sizeof *query);
    const uint16_t *parent = offer(table->parent, lengths.parent * sizeof *parent);
    const uint16_t *kind = offer(table->kind, lengths.kind * sizeof *kind);
    const uint8_t *given = offer(table->marks, lengths.given);
    uint8_t *marks = offer(NULL, lengths.marks), *scratch = offer(NULL, lengths.scratch);
    uint64_t answer = halyardfig_run(our_query, count, parent, lengths.parent, kind, lengths.kind, given, lengths.given,
                                     marks, lengths.marks, scratch, lengths.scratch);
    if (halyardfig_refused(answer) == 0)
        tally(all_bytes(scratch, scratch_used, 0), "%s: scratch is not zero", what);
    expect(what, answer, expected, (size_t[]){0, 0, 0, 0, lengths.marks, scratch_used});
    follow_is(what, query, count, table, lengths, expected);
}

static void extract_is(const char *what, const struct table *table, struct lengths lengths, size_t parent_room,
                       size_t kind_room, uint64_t expected)
{
    const uint16_t *parent = offer(table->parent, lengths.parent * sizeof *parent);
    const uint16_t *kind = offer(table->kind, lengths.kind * sizeof *kind);
    const uint8_t *marks = offer(table->marks, lengths.marks);
    uint16_t *out_parent = offer(NULL, parent_room * sizeof *out_parent);
    uint16_t *out_kind = offer(NULL, kind_room * sizeof *out_kind);
    uint64_t answer = halyardfig_extract(parent, lengths.parent, kind, lengths.kind, marks, lengths.marks, out_parent,
                                         parent_room, out_kind, kind_room);
    size_t written = halyardfig_value(answer) * sizeof(uint16_t);
    expect(what, answer, expected, (size_t[]){0, 0, 0, written, written});
}

static void height_is(const char *what, const uint32_t *query, size_t count, uint64_t expected)
{
    const uint32_t *our_query = offer(query, count * sizeof *query);
    expect(what, halyardfig_height(our_query, count), expected, (size_t[]){0});
}

static void paths_are(const char *what, const uint32_t *query, size_t count, uint64_t expected)
{
    const uint32_t *our_query = offer(query, count * sizeof *query);
    expect(what, halyardfig_paths(our_query, count), expected, (size_t[]){0});
}

static const uint32_t root_query[] = {0};
static const uint32_t good_inner[] = {PATH_ITEM(1), STEP_ITEM(CHILD, FIRST_NAME + 1, 0)};

static struct table one_node(void)
{
    return (struct table){.parent = {0}, .kind = {0}, .marks = {1}, .nodes = 1};
}

/* Line 6 in each call that is lent a query. */
static void malformed_is_refused(const char *what, const uint32_t *query, size_t count)
{
    static struct table table;
    table = one_node();
    print_is(what, query, count, abcd, 9000, REFUSED(6, 0));
    for (unsigned way = 0; way < 2; way++) {
        lean = way == 1;
        compose_is(what, query, count, good_inner, 2, ITEM_ROOM, REFUSED(6, 0));
        compose_is(what, good_inner, 2, query, count, ITEM_ROOM, REFUSED(6, 1));
        compose_is(what, query, count, query, count, ITEM_ROOM, REFUSED(6, 0));
    }
    run_is(what, query, count, &table, (struct lengths){1, 1, 1, 1, 20000}, REFUSED(6, 0), 0);
    height_is(what, query, count, REFUSED(6, 0));
    paths_are(what, query, count, REFUSED(6, 0));
}

static void malformed_items(void)
{
    const uint32_t path = PATH_ITEM(1), step = STEP_ITEM(CHILD, NODE_TEST, 0), guarded = STEP_ITEM(CHILD, NODE_TEST, 1);
    const struct {
        const char *what;
        uint32_t items[7];
        size_t count;
    } bad[] = {
        {"no items", {0}, 0},
        {"step at the top", {step}, 1},
        {"step after a path", {0, step}, 2},
        {"and at the top", {AND_ITEM, path, step, path, step}, 5},
        {"or at the top", {OR_ITEM, path, step, path, step}, 5},
        {"not at the top", {NOT_ITEM, path, step}, 3},
        {"kind 5", {5}, 1},
        {"kind 6", {6}, 1},
        {"kind 7", {7}, 1},
        {"path without its step", {path}, 1},
        {"path with too few steps", {PATH_ITEM(2), step}, 2},
        {"path with too many steps", {path, step, step}, 3},
        {"path of the most steps", {PATH_ITEM(MOST_COUNT), step}, 2},
        {"path inside a path", {path, path, step}, 3},
        {"bit 16 of a path", {path | 1 << 16, step}, 2},
        {"bit 31 of a path", {path | 1u << 31, step}, 2},
        {"bit 31 of the root path", {1u << 31}, 1},
        {"bit 29 of a step", {path, step | 1 << 29}, 2},
        {"bit 31 of a step", {path, step | 1u << 31}, 2},
        {"first number that is no axis", {path, STEP_ITEM(AXES, NODE_TEST, 0)}, 2},
        {"axis 12", {path, STEP_ITEM(12, NODE_TEST, 0)}, 2},
        {"axis 13", {path, STEP_ITEM(13, NODE_TEST, 0)}, 2},
        {"axis 14", {path, STEP_ITEM(14, NODE_TEST, 0)}, 2},
        {"greatest number of an axis", {path, STEP_ITEM(MOST_AXIS, NODE_TEST, 0)}, 2},
        {"no axis, with a name and a predicate", {path, STEP_ITEM(AXES, FIRST_NAME, 1), path, step}, 4},
        {"first number that is no test", {path, STEP_ITEM(CHILD, ANY_TEST + 1, 0)}, 2},
        {"greatest number of a test", {path, STEP_ITEM(CHILD, MOST_TEST, 0)}, 2},
        {"predicate missing", {path, guarded}, 2},
        {"predicate is a step", {path, guarded, step}, 3},
        {"predicate of no steps", {path, guarded, 0}, 3},
        {"not of no steps", {path, guarded, NOT_ITEM, 0}, 4},
        {"and left of no steps", {path, guarded, AND_ITEM, 0, path, step}, 6},
        {"or right of no steps", {path, guarded, OR_ITEM, path, step, 0}, 6},
        {"and with one side", {path, guarded, AND_ITEM, path, step}, 5},
        {"not with no side", {path, guarded, NOT_ITEM}, 3},
        {"bit 3 of and", {path, guarded, AND_ITEM | 8, path, step, path, step}, 7},
        {"bit 31 of or", {path, guarded, OR_ITEM | 1u << 31, path, step, path, step}, 7},
        {"bit 15 of not", {path, guarded, NOT_ITEM | 1 << 15, path, step}, 5},
        {"two predicates promised", {path, STEP_ITEM(CHILD, NODE_TEST, 2), path, step}, 4},
        {"the most predicates promised", {path, STEP_ITEM(CHILD, NODE_TEST, MOST_COUNT), path, step}, 4},
    };
    for (size_t i = 0; i < sizeof bad / sizeof bad[0]; i++)
        malformed_is_refused(bad[i].what, bad[i].items, bad[i].count);
}

/* `/node()[node()[...`, nested so deep, each step along the axis. */
static size_t nested_along(uint32_t *items, size_t nesting, unsigned axis)
{
    for (size_t i = 0; i <= nesting; i++) {
        items[2 * i] = PATH_ITEM(1);
        items[2 * i + 1] = STEP_ITEM(axis, NODE_TEST, i < nesting);
    }
    return 2 * nesting + 2;
}

static size_t nested(uint32_t *items, size_t nesting)
{
    return nested_along(items, nesting, CHILD);
}

static void nested_items(void)
{
    static uint32_t items[ITEM_ROOM];
    static struct table table;
    enum { DEEPEST = HALYARDFIG_NESTING, HEIGHT = DEEPEST + 1, SCRATCH = 2 * (HEIGHT + 1) };
    table = one_node();
    size_t count = nested(items, DEEPEST + 1);
    malformed_is_refused("nested too deep", items, count);
    count = nested(items, DEEPEST);
    run_is("deepest", items, count, &table, (struct lengths){1, 1, 1, 1, SCRATCH + 1}, 0, SCRATCH);
    run_is("deepest, scratch short", items, count, &table, (struct lengths){1, 1, 1, 1, SCRATCH - 1},
           REFUSED(10, SCRATCH), 0);
    print_is("deepest", items, count, "", 9000, 1 + (DEEPEST + 1) * strlen("child::node()") + 2 * DEEPEST);
    for (size_t i = 0; i < ITEM_ROOM; i++)
        items[i] = NOT_ITEM;
    malformed_is_refused("not alone", items, ITEM_ROOM);
    items[0] = PATH_ITEM(1);
    items[1] = STEP_ITEM(CHILD, NODE_TEST, 1);
    items[ITEM_ROOM - 2] = PATH_ITEM(1);
    items[ITEM_ROOM - 1] = STEP_ITEM(CHILD, NODE_TEST, 0);
    malformed_is_refused("not again and again in a predicate", items, ITEM_ROOM);
}

static void print_refusals(void)
{
    static uint32_t zeros[ITEM_ROOM + 1];
    static char names[LIST_ROOM + 2];
    enum { BYTES = 2 * ITEM_ROOM - 1 };
    memset(names, 'a', LIST_ROOM + 1);
    const uint32_t named[] = {PATH_ITEM(2), STEP_ITEM(CHILD, FIRST_NAME, 0), STEP_ITEM(CHILD, FIRST_NAME + 4, 0)};
    const uint32_t bad[] = {5};
    print_is("longest query", zeros, ITEM_ROOM, "", BYTES, BYTES);
    print_is("longest query, room short", zeros, ITEM_ROOM, "", BYTES - 1, REFUSED(10, BYTES));
    print_is("query too long", zeros, ITEM_ROOM + 1, "1", 0, REFUSED(1, 0));
    print_is("list too long", bad, 1, names, 9, REFUSED(1, 0));
    print_is("bad list before bad query", bad, 1, "a\na\n", 9, REFUSED(2, 2));
    print_is("bad query before unknown name", (uint32_t[]){PATH_ITEM(1), named[2], 5}, 3, "", 0, REFUSED(6, 0));
    print_is("unknown name before room", named, 3, abcd, 0, REFUSED(5, 2));
    print_is("first unknown name", named, 3, "", 99, REFUSED(5, 1));
    print_is("last name of all", (uint32_t[]){PATH_ITEM(1), STEP_ITEM(SELF, ANY_TEST - 1, 0)}, 2, abcd, 99,
             REFUSED(5, 1));
    print_is("any name needs no list", (uint32_t[]){PATH_ITEM(1), STEP_ITEM(SELF, ANY_TEST, 0)}, 2, "", 8, 8);
    print_is("no room", root_query, 1, "", 0, REFUSED(10, 1));
    print_is("room for one byte", root_query, 1, "", 1, 1);
    print_is("room over", root_query, 1, "", 99, 1);
    print_is("room one short", named, 2 + 1, "a\nb\nc\nd\ne\n", 17, REFUSED(10, 18));
    print_is("room just right", named, 2 + 1, "a\nb\nc\nd\ne\n", 18, 18);
    print_form_is(true, "longest query, short", zeros, ITEM_ROOM, "", BYTES, BYTES);
    print_form_is(true, "longest query, short, room short", zeros, ITEM_ROOM, "", BYTES - 1, REFUSED(10, BYTES));
    print_form_is(true, "short, no room", root_query, 1, "", 0, REFUSED(10, 1));
    print_form_is(true, "short, room one short", (uint32_t[]){PATH_ITEM(1), STEP_ITEM(SELF, 0, 0)}, 2, "", 1,
                  REFUSED(10, 2));
    print_form_is(true, "short, room just right", (uint32_t[]){PATH_ITEM(1), STEP_ITEM(SELF, 0, 0)}, 2, "", 2, 2);
}

/* How deep a query may be nested, and an inner and an outer query of child steps that is composed with `/b`;
   and the items that `/b` brings to a guarded step and to a path. */
enum {
    MOST_NESTED = HALYARDFIG_NESTING,
    OVER = MOST_NESTED + 1,
    INNER_MOST = MOST_NESTED - 2,
    OUTER_MOST = MOST_NESTED - 4,
    GUARD_ITEMS = 17,
    LAST_ITEMS = 9
};

/* The edges of 9, for each axis in the brackets: only a guarded step brings the brackets of V to where it stands. Leanly
   the step outside all brackets is not guarded. */
static void nesting_by_axis(void)
{
    static const struct {
        const char *what;
        unsigned axis;
        bool guarded;
    } axes[] = {
        {"self", SELF, false},
        {"child", CHILD, true},
        {"parent", PARENT, false},
        {"descendant-or-self", DESCENDANT_OR_SELF, true},
        {"ancestor-or-self", ANCESTOR_OR_SELF, false},
        {"descendant", DESCENDANT, true},
        {"ancestor", ANCESTOR, false},
        {"following-sibling", FOLLOWING_SIBLING, true},
        {"preceding-sibling", PRECEDING_SIBLING, true},
        {"following", FOLLOWING, true},
        {"preceding", PRECEDING, true},
    };
    static uint32_t deep[ITEM_ROOM];
    for (size_t i = 0; i < sizeof axes / sizeof axes[0]; i++) {
        size_t count = nested_along(deep, OUTER_MOST, axes[i].axis);
        size_t guards = axes[i].guarded ? OUTER_MOST + !lean : 0;
        compose_is(axes[i].what, deep, count, good_inner, 2, ITEM_ROOM, count + guards * GUARD_ITEMS + LAST_ITEMS);
        count = nested_along(deep, OUTER_MOST + 1, axes[i].axis);
        compose_is(axes[i].what, deep, count, good_inner, 2, ITEM_ROOM,
                   axes[i].guarded ? REFUSED(9, OVER) : count + LAST_ITEMS);
        count = nested_along(deep, MOST_NESTED, axes[i].axis);
        compose_is(axes[i].what, deep, count, good_inner, 2, ITEM_ROOM,
                   axes[i].guarded ? REFUSED(9, MOST_NESTED + 4) : count + LAST_ITEMS);
        /* One guarded step where only the first bracket is open, and one in the deepest. */
        deep[3] = STEP_ITEM(CHILD, NODE_TEST, 1);
        compose_is(axes[i].what, deep, count, good_inner, 2, ITEM_ROOM,
                   axes[i].guarded ? REFUSED(9, MOST_NESTED + 4) : count + GUARD_ITEMS + LAST_ITEMS);
        count = nested_along(deep, OUTER_MOST + 1, axes[i].axis);
        deep[count - 1] = STEP_ITEM(DESCENDANT_OR_SELF, NODE_TEST, 0);
        compose_is(axes[i].what, deep, count, good_inner, 2, ITEM_ROOM, REFUSED(9, OVER));
    }
}

static void compose_refusals(bool leanly)
{
    static uint32_t zeros[ITEM_ROOM + 1], deep[ITEM_ROOM];
    const uint32_t bad[] = {5};
    lean = leanly;
    compose_is("outer too long", zeros, ITEM_ROOM + 1, bad, 1, 0, REFUSED(1, 0));
    compose_is("inner too long", bad, 1, zeros, ITEM_ROOM + 1, 0, REFUSED(1, 0));
    compose_is("the most inner paths", root_query, 1, zeros, ITEM_ROOM, ITEM_ROOM, REFUSED(10, 3 + 6 * ITEM_ROOM));
    compose_is("the most outer paths", zeros, ITEM_ROOM, root_query, 1, ITEM_ROOM, REFUSED(10, 9 * ITEM_ROOM));
    size_t count = nested(deep, OUTER_MOST + 1);
    compose_is("bad inner before nesting", deep, count, bad, 1, ITEM_ROOM, REFUSED(6, 1));
    compose_is("outer too deep", deep, count, good_inner, 2, 0, REFUSED(9, OVER));
    compose_is("inner as deep", good_inner, 2, deep, count, ITEM_ROOM, lean ? 2 + 3 + count + 4 : 2 + 5 + 3 + 3 * (count + 4));
    count = nested(deep, INNER_MOST);
    compose_is("inner deepest", good_inner, 2, deep, count, ITEM_ROOM, lean ? 2 + 3 + count + 4 : 2 + 5 + 3 + 3 * (count + 4));
    count = nested(deep, INNER_MOST + 1);
    compose_is("inner too deep", good_inner, 2, deep, count, 0, REFUSED(9, OVER));
    compose_is("both too deep", deep, count, deep, count, 0, REFUSED(9, 2 * (INNER_MOST + 1) + 2));
    count = nested(deep, OUTER_MOST);
    size_t size = count + (size_t)(OUTER_MOST + !lean) * GUARD_ITEMS + LAST_ITEMS;
    compose_is("outer deepest", deep, count, good_inner, 2, ITEM_ROOM, size);
    compose_is("outer deepest, no room", deep, count, good_inner, 2, 0, REFUSED(10, size));
    nesting_by_axis();
    compose_is("room one short", root_query, 1, root_query, 1, 8, REFUSED(10, 9));
    compose_is("room just right", root_query, 1, root_query, 1, 9, 9);
    compose_is("room over", root_query, 1, root_query, 1, 5000, 9);
}

/* Documents. */

static const struct table seven = {
    .parent = {0, 0, 1, 2, 3, 1, 5}, .kind = {0, 2, 3, 4, 1, 3, 5}, .marks = {1, 1, 1, 1, 1, 1, 1}, .nodes = 7};

static void lengths_are_checked(void)
{
    static struct table large;
    static const struct lengths unequal[] = {{6, 7, 7, 7, 99}, {7, 6, 7, 7, 99}, {7, 7, 6, 7, 99}, {7, 7, 7, 6, 99},
                                             {8, 7, 7, 7, 99}, {7, 8, 7, 7, 99}, {7, 7, 8, 7, 99}, {7, 7, 7, 8, 99},
                                             {0, 7, 7, 7, 99}, {7, 0, 7, 7, 99}, {7, 7, 0, 7, 99}, {7, 7, 7, 0, 99}};
    for (size_t i = 0; i < sizeof unequal / sizeof unequal[0]; i++)
        run_is("unequal lengths", (uint32_t[]){5}, 1, &seven, unequal[i], REFUSED(1, 0), 0);
    extract_is("columns unequal", &seven, (struct lengths){.parent = 7, .kind = 6, .marks = 7}, 7, 7, REFUSED(1, 0));
    extract_is("columns unequal", &seven, (struct lengths){.parent = 6, .kind = 7, .marks = 6}, 7, 7, REFUSED(1, 0));
    extract_is("marks short", &seven, (struct lengths){.parent = 7, .kind = 7, .marks = 6}, 7, 7, REFUSED(1, 0));
    extract_is("marks long", &seven, (struct lengths){.parent = 7, .kind = 7, .marks = 8}, 7, 7, REFUSED(1, 0));
    extract_is("output unequal", &seven, (struct lengths){.parent = 7, .kind = 7, .marks = 7}, 7, 8, REFUSED(1, 0));
    extract_is("output unequal", &seven, (struct lengths){.parent = 7, .kind = 7, .marks = 7}, 8, 7, REFUSED(1, 0));
    for (size_t i = 1; i < NODE_ROOM; i++) {
        large.parent[i] = (uint16_t)(i - 1);
        large.kind[i] = LAST_KIND;
    }
    memset(large.marks, 1, NODE_ROOM);
    struct lengths all = {NODE_ROOM, NODE_ROOM, NODE_ROOM, NODE_ROOM, 4 * NODE_ROOM};
    run_is("the most nodes", root_query, 1, &large, all, NODE_ROOM, 4 * NODE_ROOM);
    extract_is("the most nodes", &large, all, NODE_ROOM, NODE_ROOM, NODE_ROOM);
    all.scratch--;
    run_is("the most nodes, scratch short", root_query, 1, &large, all, REFUSED(10, 4 * NODE_ROOM), 0);
}

/* A table with one node more than the limit. */
static void too_many_nodes(void)
{
    enum { MANY = NODE_ROOM + 1, SCRATCH = 4 * MANY };
    static uint16_t column[MANY];
    static uint8_t marks[MANY];
    const uint16_t *parent = offer(column, sizeof column), *kind = offer(column, sizeof column);
    const uint8_t *given = offer(marks, sizeof marks);
    uint16_t *out_parent = offer(NULL, sizeof column), *out_kind = offer(NULL, sizeof column);
    expect("extract of too many nodes",
           halyardfig_extract(parent, MANY, kind, MANY, given, MANY, out_parent, MANY, out_kind, MANY), REFUSED(1, 0),
           (size_t[]){0, 0, 0, 0, 0});
    const uint32_t *query = offer(root_query, sizeof root_query);
    parent = offer(column, sizeof column);
    kind = offer(column, sizeof column);
    given = offer(marks, sizeof marks);
    uint8_t *out = offer(NULL, sizeof marks), *scratch = offer(NULL, SCRATCH);
    expect("run on too many nodes",
           halyardfig_run(query, 1, parent, MANY, kind, MANY, given, MANY, out, MANY, scratch, SCRATCH), REFUSED(1, 0),
           (size_t[]){0, 0, 0, 0, 0, 0});
    static uint32_t long_query[ITEM_ROOM + 1];
    static struct table table;
    table = one_node();
    run_is("query too long", long_query, ITEM_ROOM + 1, &table, (struct lengths){1, 1, 1, 1, 9}, REFUSED(1, 0), 0);
}

static void table_is(const char *what, const struct table *table, uint64_t expected)
{
    size_t n = table->nodes;
    run_is(what, root_query, 1, table, (struct lengths){n, n, n, n, 0}, expected, 0);
    run_is(what, root_query, 1, table, (struct lengths){n, n, n, n, 4 * n + 3}, expected, 4 * n);
    run_is(what, (uint32_t[]){5}, 1, table, (struct lengths){n, n, n, n, 0}, REFUSED(6, 0), 0);
    extract_is(what, table, (struct lengths){.parent = n, .kind = n, .marks = n}, 0, 0, expected);
    extract_is(what, table, (struct lengths){.parent = n, .kind = n, .marks = n}, 99, 99, expected);
}

static void bad_tables(void)
{
    static const struct {
        const char *what;
        unsigned node, parent, kind;
        unsigned place;
    } bad[] = {
        {"root with a parent", 0, 1, 0, 0},
        {"root of kind 1", 0, 0, 1, 0},
        {"root of kind 2", 0, 0, 2, 0},
        {"second root", 3, 2, 0, 3},
        {"kind too large", 3, 2, LAST_KIND + 1, 3},
        {"kind 65,535", 6, 5, 65535, 6},
        {"its own parent", 3, 3, 4, 3},
        {"a later parent", 3, 4, 4, 3},
        {"parent outside", 6, 7, 5, 6},
        {"parent 65,535", 1, 65535, 2, 1},
        {"a sibling's child", 6, 2, 5, 6},
        {"child of text", 5, 4, 3, 5},
        {"text with a child", 2, 1, 1, 3},
        {"text as first parent", 1, 0, 1, 2},
        {"no ancestor", 6, 3, 5, 6},
    };
    static struct table table;
    for (size_t i = 0; i < sizeof bad / sizeof bad[0]; i++) {
        table = seven;
        table.parent[bad[i].node] = (uint16_t)bad[i].parent;
        table.kind[bad[i].node] = (uint16_t)bad[i].kind;
        table_is(bad[i].what, &table, REFUSED(7, bad[i].place));
        table.marks[0] = 2;
        table_is("bad table before bad marks", &table, REFUSED(7, bad[i].place));
    }
    table.nodes = 0;
    table_is("no nodes", &table, REFUSED(7, 0));
}

static void bad_marks(void)
{
    static const struct {
        const char *what;
        const uint8_t marks[7];
        unsigned place;
    } bad[] = {
        {"mark 2 at the root", {2, 1, 1, 1, 1, 1, 1}, 0},  {"mark 255", {1, 1, 1, 1, 255, 1, 1}, 4},
        {"mark 2 at the end", {1, 1, 1, 1, 1, 1, 2}, 6},   {"root unmarked", {0, 1, 0, 0, 0, 0, 0}, 1},
        {"last under unmarked", {1, 1, 1, 1, 1, 0, 1}, 6}, {"first of two", {1, 1, 0, 1, 2, 0, 1}, 3},
        {"bad below unmarked", {0, 0, 0, 0, 0, 0, 3}, 6},  {"marked under bad", {1, 2, 1, 1, 1, 1, 1}, 1},
    };
    static struct table table;
    for (size_t i = 0; i < sizeof bad / sizeof bad[0]; i++) {
        table = seven;
        memcpy(table.marks, bad[i].marks, 7);
        table_is(bad[i].what, &table, REFUSED(8, bad[i].place));
    }
}

static void rooms(void)
{
    static struct table table;
    const struct lengths all = {.parent = 7, .kind = 7, .given = 7, .marks = 7};
    table = seven;
    extract_is("room one short", &table, all, 6, 6, REFUSED(10, 7));
    extract_is("no room", &table, all, 0, 0, REFUSED(10, 7));
    extract_is("room just right", &table, all, 7, 7, 7);
    extract_is("room over", &table, all, 5000, 5000, 7);
    run_is("scratch one short", root_query, 1, &table, (struct lengths){7, 7, 7, 7, 27}, REFUSED(10, 28), 0);
    run_is("no scratch", root_query, 1, &table, (struct lengths){7, 7, 7, 7, 0}, REFUSED(10, 28), 0);
    run_is("scratch just right", root_query, 1, &table, (struct lengths){7, 7, 7, 7, 28}, 7, 28);
    run_is("scratch over", root_query, 1, &table, (struct lengths){7, 7, 7, 7, 4000}, 7, 28);
    const uint32_t height_four[] = {
        PATH_ITEM(1), STEP_ITEM(CHILD, NODE_TEST, 1), OR_ITEM,      NOT_ITEM,
        PATH_ITEM(1), STEP_ITEM(SELF, NODE_TEST, 0),  PATH_ITEM(1), STEP_ITEM(SELF, NODE_TEST, 0)};
    run_is("height 4", height_four, 8, &table, (struct lengths){7, 7, 7, 7, 69}, REFUSED(10, 70), 0);
    run_is("height 4", height_four, 8, &table, (struct lengths){7, 7, 7, 7, 75}, 7, 70);
    memset(table.marks, 0, 7);
    extract_is("nothing marked", &table, all, 0, 0, 0);
    extract_is("nothing marked, room", &table, all, 9, 9, 0);
    run_is("nothing marked", root_query, 1, &table, (struct lengths){7, 7, 7, 7, 29}, 0, 28);
}

/* Heights and path counts at the limit of items: paths of no step, and `not` in `not`. */
static void measured_queries(void)
{
    static uint32_t items[ITEM_ROOM + 1];
    const uint32_t path = PATH_ITEM(1), step = STEP_ITEM(CHILD, NODE_TEST, 0), guarded = STEP_ITEM(CHILD, NODE_TEST, 1);
    height_is("the most paths", items, ITEM_ROOM, 1);
    paths_are("the most paths", items, ITEM_ROOM, ITEM_ROOM);
    height_is("one path too many", items, ITEM_ROOM + 1, REFUSED(1, 0));
    paths_are("one path too many", items, ITEM_ROOM + 1, REFUSED(1, 0));
    items[0] = 5;
    height_is("too long before malformed", items, ITEM_ROOM + 1, REFUSED(1, 0));
    paths_are("too long before malformed", items, ITEM_ROOM + 1, REFUSED(1, 0));
    for (unsigned nots = HALYARDFIG_NESTING - 2; nots <= HALYARDFIG_NESTING; nots++) {
        items[0] = path;
        items[1] = guarded;
        for (unsigned i = 0; i < nots; i++)
            items[2 + i] = NOT_ITEM;
        items[2 + nots] = path;
        items[3 + nots] = step;
        bool deep = nots == HALYARDFIG_NESTING;
        height_is("not in not", items, 4 + nots, deep ? REFUSED(6, 0) : 2 + nots);
        paths_are("not in not", items, 4 + nots, deep ? REFUSED(6, 0) : 1);
    }
    enum { ORS = (ITEM_ROOM - 4) / 3 };
    _Static_assert(4 + 3 * ORS == ITEM_ROOM, "the longest run of or fills the query");
    for (size_t i = 0; i < ORS; i++)
        items[2 + i] = OR_ITEM;
    for (size_t i = 2 + ORS; i < ITEM_ROOM; i += 2) {
        items[i] = path;
        items[i + 1] = step;
    }
    height_is("the longest run of or", items, ITEM_ROOM, 2 + ORS);
    paths_are("the longest run of or", items, ITEM_ROOM, 1);
}

/* Each of the five numbers of scratch at its edges, in every combination. */
static void scratch_numbers(void)
{
    static const size_t edges[] = {0, 1, 4096, 4097, SIZE_MAX};
    enum { EDGES = sizeof edges / sizeof edges[0], NUMBERS = 5 };
    for (unsigned choice = 0; choice < EDGES * EDGES * EDGES * EDGES * EDGES; choice++) {
        size_t numbers[NUMBERS];
        bool right = true;
        unsigned left = choice;
        for (size_t i = 0; i < NUMBERS; i++, left /= EDGES) {
            numbers[i] = edges[left % EDGES];
            right = right && numbers[i] >= 1 && numbers[i] <= 4096;
        }
        uint64_t answer = halyardfig_scratch(numbers[0], numbers[1], numbers[2], numbers[3], numbers[4]);
        size_t inner = numbers[3] < 3 ? 3 : numbers[3];
        uint64_t expected = right ? numbers[0] * 2 * (numbers[1] + inner + numbers[4] + 2) : REFUSED(1, 0);
        tally(answer == expected, "scratch of %zu %zu %zu %zu %zu: %llx", numbers[0], numbers[1], numbers[2],
              numbers[3], numbers[4], (unsigned long long)answer);
    }
    answer_is("the most scratch", halyardfig_scratch(4096, 4096, 4096, 4096, 4096), 100679680);
    answer_is("the least scratch", halyardfig_scratch(1, 1, 1, 1, 1), 14);
    answer_is("a refusal passed on", halyardfig_scratch(1, halyardfig_height(root_query, 0), 1, 1, 1), REFUSED(1, 0));
    for (size_t inner = 1; inner <= 5; inner++)
        answer_is("the larger of 3 and the inner height", halyardfig_scratch(1, 1, 1, inner, 1),
                  2 * ((inner < 3 ? 3 : inner) + 4));
}

/* Memory lent twice for reading is read twice. */
static void lent_twice(void)
{
    static struct query once, again;
    const uint32_t copy[] = {good_inner[0], good_inner[1]};
    static const uint16_t zeros[] = {0};
    static const uint8_t given[] = {1};
    uint8_t marks[1], scratch[4];
    uint64_t answer = halyardfig_compose(good_inner, 2, good_inner, 2, once.items, ITEM_ROOM);
    tally(answer == halyardfig_compose(good_inner, 2, copy, 2, again.items, ITEM_ROOM) && answer == 28 &&
              memcmp(once.items, again.items, 28 * sizeof(uint32_t)) == 0,
          "a query composed with itself");
    answer = halyardfig_compose_lean(good_inner, 2, good_inner, 2, once.items, ITEM_ROOM);
    tally(answer == halyardfig_compose_lean(good_inner, 2, copy, 2, again.items, ITEM_ROOM) && answer == 11 &&
              memcmp(once.items, again.items, 11 * sizeof(uint32_t)) == 0,
          "a query composed leanly with itself");
    tally(halyardfig_run(root_query, 1, zeros, 1, zeros, 1, given, 1, marks, 1, scratch, 4) == 1, "one column twice");
}

/* Lengths of 2^32 and a little, which are no small lengths; the memory is all zeros and hardly touched. */
static void huge_lengths(void)
{
    const size_t huge = ((size_t)1 << 32) + 1, bytes = huge * sizeof(uint64_t);
    void *memory = mmap(NULL, bytes, PROT_READ | PROT_WRITE, MAP_PRIVATE | MAP_ANONYMOUS | MAP_NORESERVE, -1, 0);
    if (memory == MAP_FAILED) {
        printf("no room to try huge lengths\n");
        return;
    }
    const uint8_t slash[] = {'/'}, one[] = {1};
    const uint16_t zero[] = {0};
    uint32_t items[9];
    uint8_t marks[1], room[9];
    uint16_t parents[1], kinds[1], begins[1], ends[1], *columns = memory;
    answer_is("huge text", halyardfig_read(memory, huge, HALYARDFIG_XPATH_1, slash, 0, items, 9), REFUSED(1, 0));
    answer_is("huge list", halyardfig_read(slash, 1, HALYARDFIG_XPATH_1, memory, huge, items, 9), REFUSED(1, 0));
    answer_is("huge room for items", halyardfig_read(slash, 1, HALYARDFIG_XPATH_2, slash, 0, memory, huge), 1);
    answer_is("huge query printed", halyardfig_print(memory, huge, slash, 0, room, 9), REFUSED(1, 0));
    answer_is("huge query printed long", halyardfig_print_long(memory, huge, slash, 0, room, 9), REFUSED(1, 0));
    answer_is("huge list printed", halyardfig_print(root_query, 1, memory, huge, room, 9), REFUSED(1, 0));
    answer_is("huge room for text", halyardfig_print(root_query, 1, slash, 0, memory, huge), 1);
    answer_is("huge outer", halyardfig_compose(memory, huge, root_query, 1, items, 9), REFUSED(1, 0));
    answer_is("huge inner", halyardfig_compose(root_query, 1, memory, huge, items, 9), REFUSED(1, 0));
    answer_is("huge room composed", halyardfig_compose(root_query, 1, root_query, 1, memory, huge), 9);
    answer_is("huge outer, lean", halyardfig_compose_lean(memory, huge, root_query, 1, items, 9), REFUSED(1, 0));
    answer_is("huge inner, lean", halyardfig_compose_lean(root_query, 1, memory, huge, items, 9), REFUSED(1, 0));
    answer_is("huge room composed leanly", halyardfig_compose_lean(root_query, 1, root_query, 1, memory, huge), 9);
    answer_is("huge query run", halyardfig_run(memory, huge, zero, 1, zero, 1, one, 1, marks, 1, room, 9),
              REFUSED(1, 0));
    answer_is("huge parent", halyardfig_run(root_query, 1, memory, huge, zero, 1, one, 1, marks, 1, room, 9),
              REFUSED(1, 0));
    answer_is("huge kind", halyardfig_run(root_query, 1, zero, 1, memory, huge, one, 1, marks, 1, room, 9),
              REFUSED(1, 0));
    answer_is("huge given", halyardfig_run(root_query, 1, zero, 1, zero, 1, memory, huge, marks, 1, room, 9),
              REFUSED(1, 0));
    answer_is("huge marks", halyardfig_run(root_query, 1, zero, 1, zero, 1, one, 1, memory, huge, room, 9),
              REFUSED(1, 0));
    answer_is("huge scratch", halyardfig_run(root_query, 1, zero, 1, zero, 1, one, 1, marks, 1, memory, huge), 1);
    answer_is("huge query followed", halyardfig_follow(memory, huge, zero, 1, zero, 1, one, 1, marks, 1),
              REFUSED(1, 0));
    answer_is("huge parent followed", halyardfig_follow(root_query, 1, memory, huge, zero, 1, one, 1, marks, 1),
              REFUSED(1, 0));
    answer_is("huge kind followed", halyardfig_follow(root_query, 1, zero, 1, memory, huge, one, 1, marks, 1),
              REFUSED(1, 0));
    answer_is("huge given followed", halyardfig_follow(root_query, 1, zero, 1, zero, 1, memory, huge, marks, 1),
              REFUSED(1, 0));
    answer_is("huge marks followed", halyardfig_follow(root_query, 1, zero, 1, zero, 1, one, 1, memory, huge),
              REFUSED(1, 0));
    answer_is("huge marks extracted", halyardfig_extract(zero, 1, zero, 1, memory, huge, parents, 1, kinds, 1),
              REFUSED(1, 0));
    answer_is("huge output column", halyardfig_extract(zero, 1, zero, 1, one, 1, memory, huge, kinds, 1),
              REFUSED(1, 0));
    answer_is("huge query's height", halyardfig_height(memory, huge), REFUSED(1, 0));
    answer_is("huge query's paths", halyardfig_paths(memory, huge), REFUSED(1, 0));
    answer_is("huge XML text", halyardfig_read_xml(memory, huge, slash, 0, parents, 1, kinds, 1, begins, 1, ends, 1),
              REFUSED(1, 0));
    answer_is("huge list of XML", halyardfig_read_xml(slash, 1, memory, huge, parents, 1, kinds, 1, begins, 1, ends, 1),
              REFUSED(1, 0));
    answer_is("huge column of XML",
              halyardfig_read_xml(slash, 1, slash, 0, parents, 1, kinds, 1, columns, huge, ends, 1), REFUSED(1, 0));
    answer_is("huge room for XML",
              halyardfig_read_xml((const uint8_t *)"<a/>", 4, (const uint8_t *)"a\n", 2, columns, huge, columns + huge,
                                  huge, columns + 2 * huge, huge, columns + 3 * huge, huge),
              2);
    answer_is("huge parent of a cut", halyardfig_is_cut(zero, 1, zero, 1, memory, huge, zero, 1, zero, 1),
              REFUSED(1, 0));
    answer_is("huge kind of a cut", halyardfig_is_cut(zero, 1, zero, 1, zero, 1, memory, huge, zero, 1), REFUSED(1, 0));
    answer_is("huge numbers of a cut", halyardfig_is_cut(zero, 1, zero, 1, zero, 1, zero, 1, memory, huge),
              REFUSED(1, 0));
    answer_is("huge parent of ours", halyardfig_is_cut(memory, huge, zero, 1, zero, 1, zero, 1, zero, 1),
              REFUSED(1, 0));
    answer_is("huge kind of ours", halyardfig_is_cut(zero, 1, memory, huge, zero, 1, zero, 1, zero, 1), REFUSED(1, 0));
    munmap(memory, bytes);
}

int main(void)
{
    group_start("refusals");
    read_lengths();
    read_lists();
    read_syntax();
    read_versions();
    read_brackets();
    read_rooms();
    malformed_items();
    nested_items();
    print_refusals();
    compose_refusals(false);
    compose_refusals(true);
    lengths_are_checked();
    too_many_nodes();
    bad_tables();
    bad_marks();
    rooms();
    measured_queries();
    scratch_numbers();
    lent_twice();
    huge_lengths();
    return group_end();
}
