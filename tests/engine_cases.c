/*
 * Writes cases for an independent XPath engine, with what the library keeps of each.
 * A line starts with a letter: C case, N names, P parents, K kinds, G given marks,
 * Q a query text, each run inside the marks left by the one before it, V such a text of XPath 2.0,
 * and E the marks expected.
 */
#include "cases.h"
#include "halyardfig.h"

#include <stdio.h>
#include <string.h>

/* So many throws find compositions that keep a part of the document for about every second one. */
enum { SCRATCH_ROOM = 1 << 20, PRINT_ROOM = 1 << 18, COMPOSITION_THROWS = 40 };

static struct list list;
static struct table table;
static struct query query, outer, inner, composed, lean;
static uint8_t kept[NODE_ROOM];

/* A text on one line: tab, LF and CR become \t, \n and \r. */
static void write_text(char letter, const uint8_t *bytes, size_t length)
{
    printf("%c ", letter);
    for (size_t i = 0; i < length; i++)
        switch (bytes[i]) {
        case '\t':
            printf("\\t");
            break;
        case '\n':
            printf("\\n");
            break;
        case '\r':
            printf("\\r");
            break;
        default:
            putchar(bytes[i]);
        }
    printf("\n");
}

static void write_document(const char *what)
{
    write_case(what);
    write_names(&list);
    write_column('P', table.parent, table.nodes);
    write_column('K', table.kind, table.nodes);
    write_marks('G', table.marks, table.nodes);
}

static bool write_printed(const struct query *printing, bool brief)
{
    static uint8_t printed[PRINT_ROOM];
    uint64_t answer = (brief ? halyardfig_print : halyardfig_print_long)(
        printing->items, printing->count, list.bytes, list.length, printed, sizeof printed);
    if (halyardfig_refused(answer) != 0)
        return complain("a good query is not printed");
    write_text('Q', printed, halyardfig_value(answer));
    return true;
}

/* A query that was run, in both forms. */
static bool write_both(const char *what, const struct query *printing)
{
    for (int brief = 0; brief < 2; brief++) {
        write_document(what);
        if (!write_printed(printing, brief))
            return false;
        write_marks('E', kept, table.nodes);
    }
    return true;
}

/* The other engine answers the same and leaves the same marks, where it can be waited for. */
static bool follow_query(const struct query *running, uint64_t expected)
{
    static uint8_t marks[NODE_ROOM];
    if (!can_follow(running->items, running->count, table.nodes))
        return true;
    uint64_t answer = halyardfig_follow(running->items, running->count, table.parent, table.nodes, table.kind,
                                        table.nodes, table.marks, table.nodes, marks, table.nodes);
    bool same = answer == expected && memcmp(marks, kept, table.nodes) == 0;
    return same || complain("the two engines differ");
}

static bool run_query(const struct query *running)
{
    static uint8_t scratch[SCRATCH_ROOM];
    uint64_t answer = halyardfig_run(running->items, running->count, table.parent, table.nodes, table.kind, table.nodes,
                                     table.marks, table.nodes, kept, table.nodes, scratch, sizeof scratch);
    if (halyardfig_refused(answer) != 0)
        return complain("a good run is refused");
    return follow_query(running, answer);
}

static void make_document(struct dice *dice, size_t most)
{
    make_list(dice, &list, (unsigned)between(dice, 1, 4));
    make_table(dice, &table, between(dice, 1, most), list.count);
    if (chance(dice, 60))
        make_marks(dice, &table, (unsigned)between(dice, 60, 99));
}

/* Did the last run keep some of what was given, and not all? */
static bool kept_some(void)
{
    bool something = memchr(kept, 1, table.nodes) != NULL;
    return something && memcmp(kept, table.marks, table.nodes) != 0;
}

/* A query that keeps a part of the document, if a few throws find one. */
static void make_single(struct dice *dice)
{
    for (unsigned throws = 0; throws < 4; throws++) {
        make_query(dice, &query, (struct bounds){between(dice, 1, 30), (unsigned)below(dice, 5), 3, list.count});
        if (chance(dice, 50))
            mix_axes(dice, &query);
        if (chance(dice, 40))
            mix_dots(dice, &query);
        if (run_query(&query) && kept_some())
            return;
    }
}

/* One query, as printed and as a loose text of one of the versions that the library reads. */
static bool single_query(struct dice *dice)
{
    static struct text text;
    uint32_t version = any_version(dice);
    make_document(dice, 40);
    make_single(dice);
    make_text(dice, &text, &query, &list, version);
    uint64_t answer =
        halyardfig_read(text.bytes, text.length, version, list.bytes, list.length, query.items, ITEM_ROOM);
    if (halyardfig_refused(answer) != 0)
        return complain("a good text is refused");
    if (!run_query(&query))
        return false;
    bool printed = write_both("printed query", &query);
    write_document("query as it was read");
    write_text(version == HALYARDFIG_XPATH_2 ? 'V' : 'Q', text.bytes, text.length);
    write_marks('E', kept, table.nodes);
    return printed;
}

/* A query and a document so small that both engines can be waited for. */
static bool two_engines(struct dice *dice)
{
    make_document(dice, 9);
    for (unsigned throws = 0; throws < 6; throws++) {
        make_query(dice, &query, (struct bounds){between(dice, 1, 14), (unsigned)below(dice, 4), 2, list.count});
        mix_axes(dice, &query);
        if (!run_query(&query))
            return false;
        if (kept_some() && can_follow(query.items, query.count, table.nodes))
            break;
    }
    return write_both("two engines", &query);
}

/* One axis by itself, in a path or in a predicate. */
static bool one_axis(struct dice *dice)
{
    make_document(dice, 20);
    for (unsigned throws = 0; throws < 4; throws++) {
        make_axis_query(dice, &query, (unsigned)below(dice, AXES), list.count);
        if (!run_query(&query))
            return false;
        if (kept_some())
            break;
    }
    return write_both("one axis", &query);
}

static uint64_t make_composed(struct dice *dice)
{
    make_query(dice, &outer, (struct bounds){between(dice, 1, 12), (unsigned)below(dice, 3), 2, list.count});
    make_query(dice, &inner, (struct bounds){between(dice, 1, 12), (unsigned)below(dice, 3), 2, list.count});
    if (chance(dice, 50))
        mix_axes(dice, &outer);
    if (chance(dice, 50))
        mix_axes(dice, &inner);
    uint64_t answer = halyardfig_compose(outer.items, outer.count, inner.items, inner.count, composed.items, ITEM_ROOM);
    composed.count = halyardfig_value(answer);
    uint64_t leanly = halyardfig_compose_lean(outer.items, outer.count, inner.items, inner.count, lean.items, ITEM_ROOM);
    lean.count = halyardfig_value(leanly);
    return halyardfig_refused(answer) != 0 ? halyardfig_refused(answer) : halyardfig_refused(leanly);
}

/* A composed query, the lean one, and its inner and outer query in turn. */
static bool composed_query(struct dice *dice)
{
    make_document(dice, 25);
    for (unsigned throws = 0; throws < COMPOSITION_THROWS; throws++) {
        uint64_t refused = make_composed(dice);
        if (refused == HALYARDFIG_REFUSED_ROOM)
            return true;
        if (refused != 0 || !run_query(&composed))
            return complain("a good composition is refused");
        if (kept_some())
            break;
    }
    bool printed = write_both("composed query", &composed);
    printed = write_both("lean query", &lean) && printed;
    write_document("inner then outer");
    printed = write_printed(&inner, chance(dice, 50)) && write_printed(&outer, chance(dice, 50)) && printed;
    write_marks('E', kept, table.nodes);
    return printed;
}

/* Three views in both groupings, and in turn. */
static bool three_views(struct dice *dice)
{
    static struct views views;
    make_document(dice, 15);
    for (unsigned throws = 0; throws < COMPOSITION_THROWS; throws++) {
        make_views(dice, &views, (struct bounds){6, 1, 2, list.count});
        if (!run_query(&views.last_two))
            return false;
        if (kept_some())
            break;
    }
    bool printed = write_both("A on (B on C)", &views.last_two);
    if (!run_query(&views.first_two))
        return false;
    printed = write_both("(A on B) on C", &views.first_two) && printed;
    printed = write_both("A on (B on C), lean", &views.lean_last_two) && printed;
    printed = write_both("(A on B) on C, lean", &views.lean_first_two) && printed;
    write_document("C, B and A in turn");
    printed = write_printed(&views.inner, chance(dice, 50)) && write_printed(&views.middle, chance(dice, 50)) &&
              write_printed(&views.outer, chance(dice, 50)) && printed;
    write_marks('E', kept, table.nodes);
    return printed;
}

/* One to five steps of descendant-or-self with `node()` in a row, for each #: at the start of a path, inside, at its
 * end, and in predicates. */
static bool deep_rows(struct dice *dice)
{
    static const char *const places[] = {
        "/#/*",      "/#",      "/*/#/*",        "/*/#",         "/#/.",       "/#/..",   "/*[#/*]",
        "/*[#]",     "/*[*/#/*]", "/*[*/#]",       "/*[not(#/..)]", "/#[text()]/*", "/*[#[*]/*]",
        "//text()|/#/*[#/text() and ..]"};
    static const char deep[] = "/descendant-or-self::node()";
    static char row[5 * sizeof deep], text[2 * sizeof row + 99];
    size_t row_length = 0, length = 0;
    for (size_t left = between(dice, 1, 5); left > 0; left--, row_length += strlen(deep))
        memcpy(row + row_length, deep, strlen(deep));
    for (const char *place = places[below(dice, sizeof places / sizeof places[0])]; *place != '\0'; place++) {
        size_t count = *place == '#' ? row_length - 1 : 1;
        memcpy(text + length, *place == '#' ? row + 1 : place, count);
        length += count;
    }
    make_document(dice, 12);
    uint64_t answer = halyardfig_read((const uint8_t *)text, length, any_version(dice), list.bytes, list.length,
                                      query.items, ITEM_ROOM);
    if (halyardfig_refused(answer) != 0)
        return complain("a good text is refused");
    query.count = halyardfig_value(answer);
    return run_query(&query) && write_both("deep rows", &query);
}

int main(void)
{
    group_start("engine");
    try_cases("single query", 8000, single_query);
    try_cases("two engines", 6000, two_engines);
    try_cases("one axis", 5000, one_axis);
    try_cases("deep rows", 3000, deep_rows);
    try_cases("composed query", 5000, composed_query);
    try_cases("three views", 1500, three_views);
    return group_end();
}
