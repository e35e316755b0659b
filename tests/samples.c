/* docs/SCOPE.md, "Samples on both sides" and "XML text into the table": the samples, through the C interface; and what
 * they leave out of `*` and of items. */
#include "halyardfig.h"
#include "making.h"

#include <stdio.h>
#include <string.h>

enum { SAMPLE_NODES = 7, SCRATCH_BYTES = 1 << 16 };

static const char sample_names[] = "a\nb\nc\nd\n";
static const uint16_t sample_parent[SAMPLE_NODES] = {0, 0, 1, 2, 3, 1, 5};
static const uint16_t sample_kind[SAMPLE_NODES] = {0, 2, 3, 4, 1, 3, 5};

/* Reads a text with the names a b c d. */
static uint64_t read_text(struct query *query, const char *text)
{
    return halyardfig_read((const uint8_t *)text, strlen(text), HALYARDFIG_XPATH_1, (const uint8_t *)sample_names,
                           strlen(sample_names), query->items, ITEM_ROOM);
}

static void read_good(struct query *query, const char *text)
{
    uint64_t answer = read_text(query, text);
    tally(halyardfig_refused(answer) == 0, "`%s` is refused: %u at %u", text, halyardfig_refused(answer),
          halyardfig_place(answer));
    query->count = halyardfig_refused(answer) == 0 ? halyardfig_value(answer) : 0;
}

typedef uint64_t composing(const uint32_t *, size_t, const uint32_t *, size_t, uint32_t *, size_t);

static uint64_t compose_by(composing *compose, struct query *made, const char *outer_text, const char *inner_text)
{
    static struct query outer, inner;
    read_good(&outer, outer_text);
    read_good(&inner, inner_text);
    uint64_t answer = compose(outer.items, outer.count, inner.items, inner.count, made->items, ITEM_ROOM);
    made->count = halyardfig_refused(answer) == 0 ? halyardfig_value(answer) : 0;
    return answer;
}

static uint64_t compose_texts(struct query *made, const char *outer_text, const char *inner_text)
{
    return compose_by(halyardfig_compose, made, outer_text, inner_text);
}

static uint64_t lean_texts(struct query *made, const char *outer_text, const char *inner_text)
{
    return compose_by(halyardfig_compose_lean, made, outer_text, inner_text);
}

static void marks_are(const char *name, const struct query *query, const char *expected)
{
    static uint8_t scratch[SCRATCH_BYTES];
    const uint8_t given[SAMPLE_NODES] = {1, 1, 1, 1, 1, 1, 1};
    uint8_t marks[SAMPLE_NODES];
    char shown[SAMPLE_NODES + 1] = "";
    unsigned kept = 0;
    uint64_t answer = halyardfig_run(query->items, query->count, sample_parent, SAMPLE_NODES, sample_kind, SAMPLE_NODES,
                                     given, SAMPLE_NODES, marks, SAMPLE_NODES, scratch, sizeof scratch);
    for (size_t i = 0; i < SAMPLE_NODES; i++) {
        shown[i] = (char)('0' + marks[i]);
        kept += expected[i] == '1';
    }
    tally(answer == kept && strcmp(shown, expected) == 0, "%s: answer %llx, marks %s, expected %s", name,
          (unsigned long long)answer, shown, expected);
    if (!can_follow(query->items, query->count, SAMPLE_NODES))
        return;
    uint8_t followed[SAMPLE_NODES];
    answer = halyardfig_follow(query->items, query->count, sample_parent, SAMPLE_NODES, sample_kind, SAMPLE_NODES,
                               given, SAMPLE_NODES, followed, SAMPLE_NODES);
    tally(answer == kept && memcmp(followed, marks, sizeof marks) == 0, "%s: followed, answer %llx", name,
          (unsigned long long)answer);
}

static void run_samples(void)
{
    static const struct {
        const char *name, *text, *marks;
    } samples[] = {
        {"P1", "/", "1111111"},
        {"P2", "/b", "0000000"},
        {"P3", "/a/b[c]", "1111100"},
        {"P4", "/a/b[not(c)]", "1100011"},
        {"P5", "//text()", "1111100"},
        {"P6", "//d/../..", "1111111"},
        {"P7", "/..", "0000000"},
        {"P8 alone", "/a[not(b/c)]", "0000000"},
        {"* and the root", "/self::*", "0000000"},
        {"* and text", "//c/*", "0000000"},
        {"* and an element", "/*", "1111111"},
        {"descendant", "/descendant::c", "1111100"},
        {"descendant and the node itself", "/descendant::node()[not(..)]|//b/descendant::b", "0000000"},
        {"ancestor", "//d/ancestor::b", "1100011"},
        {"ancestor and the node itself", "//c/ancestor::c", "0000000"},
        {"ancestor, the root", "/a/ancestor::node()", "1111111"},
        {"following-sibling", "/a/b/following-sibling::b", "1100011"},
        {"following-sibling of an only child", "//c/following-sibling::node()", "0000000"},
        {"following-sibling of the root", "/following-sibling::node()|/a/following-sibling::node()", "0000000"},
        {"preceding-sibling", "/a/b/preceding-sibling::b", "1111100"},
        {"preceding-sibling of an only child", "//d/preceding-sibling::node()", "0000000"},
        {"preceding-sibling of the root", "/preceding-sibling::node()|/a/preceding-sibling::node()", "0000000"},
        {"following", "//c/following::node()", "1100011"},
        {"following, from text", "//text()/following::d", "1100011"},
        {"following and descendants", "/following::node()|/a/following::node()|//c/following::text()", "0000000"},
        {"following the last", "//d/following::node()", "0000000"},
        {"preceding", "//d/preceding::text()", "1111100"},
        {"preceding, from two nodes", "/a/b/preceding::c", "1111100"},
        {"preceding and ancestors", "/preceding::node()|//d/preceding::a|//c/preceding::node()", "0000000"},
        {"two new axes in a predicate", "//b[following::d and not(preceding::c)]", "1111100"},
        {"docs/VIEWS.md, row 2 alone", "/a[b/c]", "1111111"},
        {"docs/VIEWS.md, row 4 alone", "//b", "1111111"},
    };
    static struct query query;
    for (size_t i = 0; i < sizeof samples / sizeof samples[0]; i++) {
        read_good(&query, samples[i].text);
        marks_are(samples[i].name, &query, samples[i].marks);
    }
}

static void composed_samples(void)
{
    static const struct {
        const char *name, *outer, *inner, *marks;
    } samples[] = {
        {"P8", "/a[not(b/c)]", "/a/b/d", "1100011"},
        {"P9", "/", "/a/b/d", "1100011"},
        {"P10", "/", "/b", "0000000"},
        {"the root of what keeps nothing", "/.", "/b", "0000000"},
        {"the root of what is kept", "/.", "/a/b/d", "1100011"},
        {"a hidden node above nothing", "//c/ancestor-or-self::b", "/a/b/d", "0000000"},
        {"up from a visible node", "//d/../..", "/a/b/d", "1100011"},
        {"a parent with a hidden child", "//d/parent::b[not(c)]/parent::a[not(b/c)]", "/a/b/d", "1100011"},
        {"a view by descendant", "/", "/descendant::d", "1100011"},
        {"a view by ancestor", "/", "//text()/ancestor::c", "1111100"},
        {"a view by following-sibling", "/", "//b/following-sibling::b", "1100011"},
        {"a view by preceding-sibling", "/", "//b/preceding-sibling::b", "1111100"},
        {"a view by following", "/", "//c/following::d", "1100011"},
        {"a view by preceding", "/", "//d/preceding::c", "1111100"},
        {"no hidden descendant", "/a[not(descendant::c)]", "/a/b/d", "1100011"},
        {"no hidden preceding sibling", "/a/b[not(preceding-sibling::b)]", "/a/b/d", "1100011"},
        {"no hidden following sibling", "/a/b[not(following-sibling::b)]", "/a/b/c", "1111100"},
        {"nothing hidden precedes", "//d[not(preceding::c)]", "/a/b/d", "1100011"},
        {"nothing hidden follows", "//c[not(following::d)]", "/a/b/c", "1111100"},
        {"an ancestor of a visible node", "//d/ancestor::b", "/a/b/d", "1100011"},
        {"docs/VIEWS.md, row 2", "/a[b/c]", "/a/b/d", "0000000"},
        {"docs/VIEWS.md, row 4", "//b", "/a/b/d", "1100011"},
        {"docs/VIEWS.md, row 5", "//text()", "/a/b/d", "0000000"},
        {"docs/VIEWS.md, a view of all", "/", "//b", "1111111"},
        {"docs/VIEWS.md, a view by not", "/", "//b[not(c)]", "1100011"},
        {"self after a hidden node", "/a[not(b/c/self::node())]", "/a/b/d", "1100011"},
        {"up from a hidden node", "/a[b/c/..]", "/a/b/d", "0000000"},
        {"sideways from a hidden node", "//c/../following-sibling::b", "/a/b/d", "0000000"},
    };
    static struct query made;
    for (size_t i = 0; i < sizeof samples / sizeof samples[0]; i++) {
        uint64_t answer = compose_texts(&made, samples[i].outer, samples[i].inner);
        tally(halyardfig_refused(answer) == 0, "%s is not composed", samples[i].name);
        marks_are(samples[i].name, &made, samples[i].marks);
        uint64_t leanly = lean_texts(&made, samples[i].outer, samples[i].inner);
        tally(leanly <= answer, "%s composed leanly is larger", samples[i].name);
        marks_are(samples[i].name, &made, samples[i].marks);
    }
}

/* Room for a text that is built. */
struct built {
    char text[TEXT_ROOM + 1];
    size_t used;
};

static void add_times(struct built *built, const char *part, size_t times)
{
    for (size_t i = 0; i < times; i++)
        built->used += (size_t)snprintf(built->text + built->used, sizeof built->text - built->used, "%s", part);
}

/* A start, one part so many times, a middle, and an end as many times. */
static const char *repeated(struct built *built, const char *start, const char *part, size_t times, const char *middle,
                            const char *end)
{
    built->used = 0;
    add_times(built, start, 1);
    add_times(built, part, times);
    add_times(built, middle, 1);
    add_times(built, end, times);
    return built->text;
}

static void size_samples(void)
{
    static struct query made;
    static struct built built;
    answer_is("P11", compose_texts(&made, "/", "/"), 9);
    answer_is("P12", compose_texts(&made, "//a", "/b|/c"), 81);
    answer_is("227 steps", compose_texts(&made, repeated(&built, "", "/a", 227, "", ""), "/b"), 4096);
    answer_is("228 steps", compose_texts(&made, repeated(&built, "", "/a", 228, "", ""), "/b"), REFUSED(10, 4114));
    answer_is("no guarded step", compose_texts(&made, "/./../ancestor-or-self::a", "/b"), 4 + 9);
    answer_is("ancestor, not guarded", compose_texts(&made, "/ancestor::a", "/b"), 2 + 9);
    answer_is("descendant, guarded", compose_texts(&made, "/descendant::a", "/b"), 2 + 17 + 9);
    answer_is("following-sibling, guarded", compose_texts(&made, "/following-sibling::a", "/b"), 2 + 17 + 9);
    answer_is("preceding-sibling, guarded", compose_texts(&made, "/preceding-sibling::a", "/b"), 2 + 17 + 9);
    answer_is("following, guarded", compose_texts(&made, "/following::a", "/b"), 2 + 17 + 9);
    answer_is("preceding, guarded", compose_texts(&made, "/preceding::a", "/b"), 2 + 17 + 9);
    answer_is("4086 steps up", compose_texts(&made, repeated(&built, "", "/..", 4086, "", ""), "/b"), 4096);
    answer_is("4087 steps up", compose_texts(&made, repeated(&built, "", "/..", 4087, "", ""), "/b"),
              REFUSED(10, 4097));
    answer_is("nesting 61", compose_texts(&made, repeated(&built, "/a", "[a", 61, "", "]"), "/b"), REFUSED(9, 65));
    enum { DEEPEST = HALYARDFIG_NESTING, GUARDED = DEEPEST - 4, GUARD_ITEMS = 17, LAST_ITEMS = 9 };
    answer_is("nesting 64, no guarded step",
              compose_texts(&made, repeated(&built, "/.", "/self::a[.", DEEPEST, "", "]"), "/b"),
              3 * DEEPEST + 2 + LAST_ITEMS);
    answer_is("nesting 64, a guarded step outside",
              compose_texts(&made, repeated(&built, "/a", "/self::a[.", DEEPEST, "", "]"), "/b"),
              3 * DEEPEST + 2 + GUARD_ITEMS + LAST_ITEMS);
    answer_is("nesting 60, a guarded step inside",
              compose_texts(&made, repeated(&built, "/.", "/self::a[.", GUARDED, "/a", "]"), "/b"),
              3 * GUARDED + 3 + GUARD_ITEMS + LAST_ITEMS);
    answer_is("nesting 61, a guarded step inside",
              compose_texts(&made, repeated(&built, "/.", "/self::a[.", GUARDED + 1, "/a", "]"), "/b"),
              REFUSED(9, DEEPEST + 1));
    answer_is("nesting 64, a guarded step inside",
              compose_texts(&made, repeated(&built, "/.", "/self::a[.", DEEPEST, "/a", "]"), "/b"),
              REFUSED(9, DEEPEST + 4));
    uint64_t sixty = compose_texts(&made, repeated(&built, "/a", "[a", 60, "", "]"), "/b");
    tally(halyardfig_refused(sixty) == 0, "nesting 60 on /b is refused: %u at %u", halyardfig_refused(sixty),
          halyardfig_place(sixty));
}

/* The lean composition: t(5 + 2s) with t the steps whose node may be hidden and that no step which goes down follows. */
static void lean_samples(void)
{
    enum { GUARD = 17, LAST = 9 };
    static struct query made;
    static struct built built;
    static char text[TEXT_ROOM];
    answer_is("/a on /b", lean_texts(&made, "/a", "/b"), 11);
    uint64_t bytes =
        halyardfig_print_long(made.items, made.count, (const uint8_t *)"a\nb\n", 4, (uint8_t *)text, sizeof text);
    static const char wanted[] = "/child::a/descendant-or-self::node()"
                                 "[ancestor-or-self::node()[self::b/parent::node()[not(parent::node())]]]";
    tally(bytes == sizeof wanted - 1 && memcmp(text, wanted, sizeof wanted - 1) == 0, "/a on /b is printed otherwise");
    answer_is("lean P11", lean_texts(&made, "/", "/"), 9);
    answer_is("a way down", lean_texts(&made, "/a/a//a", "/b"), 5 + LAST);
    answer_is("up", lean_texts(&made, "/a/..", "/b"), 3 + GUARD + LAST);
    answer_is("sideways, twice", lean_texts(&made, "/a/following-sibling::a/preceding::a", "/b"), 4 + 2 * GUARD + LAST);
    answer_is("in a predicate", lean_texts(&made, "/a[a/a]", "/b"), 5 + GUARD + LAST);
    answer_is("in a predicate, up", lean_texts(&made, "/a[a/..]", "/b"), 5 + GUARD + LAST);
    answer_is("self after a step", lean_texts(&made, "/a[a/self::node()]", "/b"), 5 + GUARD + LAST);
    answer_is("self where a path begins", lean_texts(&made, "/a[self::a]", "/b"), 4 + LAST);
    answer_is("self after a way up", lean_texts(&made, "/a[../self::a]", "/b"), 5 + LAST);
    answer_is("two paths", lean_texts(&made, "/a|/a/..", "/b"), 5 + GUARD + 2 * LAST);
    answer_is("4086 steps", lean_texts(&made, repeated(&built, "", "/a", 4086, "", ""), "/b"), 4096);
    answer_is("4087 steps", lean_texts(&made, repeated(&built, "", "/a", 4087, "", ""), "/b"), REFUSED(10, 4097));
    answer_is("nesting 60", lean_texts(&made, repeated(&built, "/a", "[a", 60, "", "]"), "/b"), 2 + 2 * 60 + 60 * GUARD + LAST);
    answer_is("nesting 61", lean_texts(&made, repeated(&built, "/a", "[a", 61, "", "]"), "/b"), REFUSED(9, 65));
}

static void read_samples(void)
{
    static const struct {
        const char *text;
        unsigned number, place;
    } samples[] = {
        {"", 3, 0},
        {"//", 3, 2},
        {"/.[a]", 3, 2},
        {"/a[/b]", 3, 3},
        {"/a[b|c]", 3, 4},
        {"/a[(b)/c]", 3, 6},
        {"/a/attribute::b", 3, 12},
        {"/e", 5, 1},
    };
    static struct query query;
    static struct built built;
    for (size_t i = 0; i < sizeof samples / sizeof samples[0]; i++)
        answer_is(samples[i].text, read_text(&query, samples[i].text), REFUSED(samples[i].number, samples[i].place));
    answer_is("63 brackets", read_text(&query, repeated(&built, "/a[", "(", 63, "b", ")")), REFUSED(3, 130));
    add_times(&built, "]", 1);
    answer_is("63 brackets, closed", read_text(&query, built.text), 4);
    repeated(&built, "/a[", "(", 64, "b", ")");
    add_times(&built, "]", 1);
    answer_is("64 brackets", read_text(&query, built.text), REFUSED(4, 66));
}

/* Steps on one name or node, as the samples below have them. */
#define A_STEP STEP_ITEM(CHILD, FIRST_NAME, 0)
#define B_STEP STEP_ITEM(CHILD, FIRST_NAME + 1, 0)
#define C_STEP STEP_ITEM(CHILD, FIRST_NAME + 2, 0)
#define D_STEP STEP_ITEM(CHILD, FIRST_NAME + 3, 0)
#define ANY_BELOW STEP_ITEM(DESCENDANT_OR_SELF, NODE_TEST, 0)
#define A_WITH_ONE STEP_ITEM(CHILD, FIRST_NAME, 1)
#define ONE PATH_ITEM(1)

/* Texts with the items that they are, in prefix order. */
static void item_samples(void)
{
    static const struct {
        const char *text;
        size_t count;
        uint32_t items[20];
    } samples[] = {
        {"/", 1, {PATH_ITEM(0)}},
        {"/|//a", 4, {PATH_ITEM(0), PATH_ITEM(2), ANY_BELOW, A_STEP}},
        {"/a[(b)]", 4, {ONE, A_WITH_ONE, ONE, B_STEP}},
        {"/a[b or c and d or not(a//b)]/..",
         17,
         {PATH_ITEM(2), A_WITH_ONE, OR_ITEM, OR_ITEM, ONE, B_STEP, AND_ITEM, ONE, C_STEP, ONE, D_STEP, NOT_ITEM,
          PATH_ITEM(3), A_STEP, ANY_BELOW, B_STEP, STEP_ITEM(PARENT, NODE_TEST, 0)}},
        {" / descendant-or-self :: node ( ) [ a ] [ text() ] ",
         6,
         {ONE, STEP_ITEM(DESCENDANT_OR_SELF, NODE_TEST, 2), ONE, A_STEP, ONE, STEP_ITEM(CHILD, TEXT_TEST, 0)}},
        {"/a[(a or b) and (b and c) or (c or d)]",
         19,
         {ONE, A_WITH_ONE, OR_ITEM, AND_ITEM, OR_ITEM, ONE, A_STEP, ONE, B_STEP, AND_ITEM, ONE, B_STEP, ONE, C_STEP,
          OR_ITEM, ONE, C_STEP, ONE, D_STEP}},
        {"/ancestor-or-self::*[self::d]",
         4,
         {ONE, STEP_ITEM(ANCESTOR_OR_SELF, ANY_TEST, 1), ONE, STEP_ITEM(SELF, FIRST_NAME + 3, 0)}},
        {"/a/preceding::b", 3, {PATH_ITEM(2), A_STEP, STEP_ITEM(PRECEDING, FIRST_NAME + 1, 0)}},
        {"/following::node()", 2, {8, 73}},
        {"/descendant::*/ancestor::text()/following-sibling::d[preceding-sibling::a]",
         6,
         {PATH_ITEM(3), STEP_ITEM(DESCENDANT, ANY_TEST, 0), STEP_ITEM(ANCESTOR, TEXT_TEST, 0),
          STEP_ITEM(FOLLOWING_SIBLING, FIRST_NAME + 3, 1), ONE, STEP_ITEM(PRECEDING_SIBLING, FIRST_NAME, 0)}},
    };
    static struct query query;
    for (size_t i = 0; i < sizeof samples / sizeof samples[0]; i++) {
        answer_is(samples[i].text, read_text(&query, samples[i].text), samples[i].count);
        tally(memcmp(query.items, samples[i].items, samples[i].count * sizeof query.items[0]) == 0,
              "`%s` is read as other items", samples[i].text);
    }
}

/* Items as they were packed before 02, 2026-06, with what they were and the text that they print as now, or a refusal.
 */
static void items_packed_before(void)
{
    static const struct {
        const char *before, *printed;
        size_t count;
        uint32_t items[6];
        uint64_t refusal;
    } samples[] = {
        {"/node()", "/child::node()", 2, {8, 1 | 1 << 3}, 0},
        {"/text()", "/following::node()", 2, {8, 73}, 0},
        {"/a", "/child::text()", 2, {8, 1 | 1 << 3 | 2 << 6}, 0},
        {"/b", "/following::text()", 2, {8, 1 | 1 << 3 | 3 << 6}, 0},
        {"/parent::text()", "/preceding::node()", 2, {8, 1 | 2 << 3 | 1 << 6}, 0},
        {"/self::text()", "/preceding-sibling::node()", 2, {8, 1 | 1 << 6}, 0},
        {"/descendant-or-self::text()", "", 2, {8, 1 | 3 << 3 | 1 << 6}, REFUSED(6, 0)},
        {"/ancestor-or-self::text()", "", 2, {8, 1 | 4 << 3 | 1 << 6}, REFUSED(6, 0)},
        {"/*", "", 2, {8, 1 | 1 << 3 | 258 << 6}, REFUSED(5, 1)},
        {"/node()[node()]", "", 4, {8, 1 | 1 << 3 | 1 << 15, 8, 1 | 1 << 3}, REFUSED(5, 1)},
        {"/node()[node()][node()]",
         "/child::node()[child::node()]|/child::node()",
         6,
         {8, 1 | 1 << 3 | 2 << 15, 8, 1 | 1 << 3, 8, 1 | 1 << 3},
         0},
    };
    for (size_t i = 0; i < sizeof samples / sizeof samples[0]; i++) {
        char printed[99];
        size_t length = strlen(samples[i].printed);
        answer_is(samples[i].before,
                  halyardfig_print_long(samples[i].items, samples[i].count, (const uint8_t *)sample_names,
                                        strlen(sample_names), (uint8_t *)printed, sizeof printed),
                  samples[i].refusal != 0 ? samples[i].refusal : length);
        tally(samples[i].refusal != 0 || memcmp(printed, samples[i].printed, length) == 0, "`%s` before is now %.*s",
              samples[i].before, (int)length, printed);
    }
}

static void printed_sample(void)
{
    static const char expected[] =
        "/child::a[descendant-or-self::node()[self::b/parent::node()[not(parent::node())]] or "
        "ancestor-or-self::node()[self::b/parent::node()[not(parent::node())]]]/"
        "descendant-or-self::node()[ancestor-or-self::node()[self::b/parent::node()[not(parent::node())]]]";
    static const char names[] = "a\nb\n";
    static struct query made;
    char printed[sizeof expected];
    answer_is("size of /a on /b", compose_texts(&made, "/a", "/b"), 28);
    uint64_t answer = halyardfig_print_long(made.items, made.count, (const uint8_t *)names, strlen(names),
                                            (uint8_t *)printed, sizeof printed);
    answer_is("bytes printed", answer, strlen(expected));
    tally(memcmp(printed, expected, strlen(expected)) == 0, "printed: %.*s", (int)strlen(expected), printed);
}

/* Each text as it is printed in the short form, and read again by both versions. */
static void short_texts(void)
{
#define DEEP "descendant-or-self::node()"
    static const struct {
        const char *text, *printed;
    } samples[] = {
        {"/", "/"},
        {"/child::a", "/a"},
        {"//a", "//a"},
        {"/" DEEP, "/" DEEP},
        {"/a/" DEEP, "/a/" DEEP},
        {"/" DEEP "/" DEEP, "//" DEEP},
        {"/" DEEP "/" DEEP "/a", "//" DEEP "/a"},
        {"/" DEEP "/" DEEP "/" DEEP "/a", "//" DEEP "//a"},
        {"/" DEEP "/" DEEP "/" DEEP "/" DEEP "/a", "//" DEEP "//" DEEP "/a"},
        {"/" DEEP "/" DEEP "/" DEEP "/" DEEP "/" DEEP "/a", "//" DEEP "//" DEEP "//a"},
        {"/a/" DEEP "/" DEEP "/b", "/a//" DEEP "/b"},
        {"/a/" DEEP "/" DEEP "/" DEEP "/b", "/a//" DEEP "//b"},
        {"/a/" DEEP "/" DEEP "/" DEEP, "/a//" DEEP "/" DEEP},
        {"/a[" DEEP "/b]", "/a[" DEEP "/b]"},
        {"/a[" DEEP "/" DEEP "/b]", "/a[" DEEP "//b]"},
        {"/a[" DEEP "/" DEEP "/" DEEP "/b]", "/a[" DEEP "//" DEEP "/b]"},
        {"/a[b/" DEEP "/" DEEP "]", "/a[b//" DEEP "]"},
        {"/a[" DEEP "[b]/" DEEP "/c]", "/a[" DEEP "[b]//c]"},
        {"/" DEEP "[a]/b", "/" DEEP "[a]/b"},
        {"/descendant-or-self::a/b", "/descendant-or-self::a/b"},
        {"/self::node()/parent::node()[child::b]/parent::a", "/./parent::node()[b]/parent::a"},
        {"/a[self::node() or not(parent::node())]", "/a[. or not(..)]"},
        {"/a/self::node()[b]|/child::node()|/child::text()|/child::*", "/a/self::node()[b]|/node()|/text()|/*"},
        {"/ancestor-or-self::node()/a", "/ancestor-or-self::node()/a"},
    };
#undef DEEP
    static struct query read, again;
    for (size_t i = 0; i < sizeof samples / sizeof samples[0]; i++) {
        static uint8_t printed[199];
        const uint8_t *names = (const uint8_t *)sample_names;
        size_t length = strlen(samples[i].printed), names_length = strlen(sample_names);
        read.count = halyardfig_value(halyardfig_read((const uint8_t *)samples[i].text, strlen(samples[i].text),
                                                      HALYARDFIG_XPATH_1, names, names_length, read.items, ITEM_ROOM));
        answer_is(samples[i].text,
                  halyardfig_print(read.items, read.count, names, names_length, printed, sizeof printed), length);
        tally(memcmp(printed, samples[i].printed, length) == 0, "`%s` is printed %.*s", samples[i].text, (int)length,
              (const char *)printed);
        for (uint32_t version = HALYARDFIG_XPATH_1; version <= HALYARDFIG_XPATH_2; version++) {
            answer_is(samples[i].printed,
                      halyardfig_read(printed, length, version, names, names_length, again.items, ITEM_ROOM),
                      read.count);
            tally(memcmp(read.items, again.items, read.count * sizeof read.items[0]) == 0,
                  "`%s` is read as another query", samples[i].printed);
        }
    }
}

static uint64_t read_document(const char *text, size_t room, uint16_t *parent, uint16_t *kind, uint16_t *begin,
                              uint16_t *end)
{
    static const char names[] = "a\nb\n";
    return halyardfig_read_xml((const uint8_t *)text, strlen(text), (const uint8_t *)names, strlen(names), parent, room,
                               kind, room, begin, room, end, room);
}

/* XML texts with the nodes and the columns that they are, with the names a and b. */
static void document_samples(void)
{
    enum { ROOM = 9, MOST = 6 };
    static const struct {
        const char *text;
        size_t nodes;
        uint16_t parent[MOST], kind[MOST], begin[MOST], end[MOST];
    } samples[] = {
        {" <a/> ", 2, {0, 0}, {0, 2}, {0, 1}, {6, 5}},
        {"<a>x<b/>y</a>", 5, {0, 0, 1, 1, 1}, {0, 2, 1, 3, 1}, {0, 0, 3, 4, 8}, {13, 13, 4, 8, 9}},
        {"<a>&lt;x&amp;</a>", 3, {0, 0, 1}, {0, 2, 1}, {0, 0, 3}, {17, 17, 13}},
        {"<?xml version='1.0' encoding=\"utf-8\" standalone = 'no' ?>\n<a ></a >\n",
         2,
         {0, 0},
         {0, 2},
         {0, 58},
         {68, 67}},
        {"<a> <b>]</b>\r\n</a>",
         6,
         {0, 0, 1, 1, 3, 1},
         {0, 2, 1, 3, 1, 1},
         {0, 0, 3, 4, 7, 12},
         {18, 18, 4, 12, 8, 14}},
    };
    for (size_t i = 0; i < sizeof samples / sizeof samples[0]; i++) {
        uint16_t parent[ROOM], kind[ROOM], begin[ROOM], end[ROOM];
        size_t bytes = samples[i].nodes * sizeof parent[0];
        answer_is(samples[i].text, read_document(samples[i].text, ROOM, parent, kind, begin, end), samples[i].nodes);
        tally(memcmp(parent, samples[i].parent, bytes) == 0, "`%s` has other parents", samples[i].text);
        tally(memcmp(kind, samples[i].kind, bytes) == 0, "`%s` has other kinds", samples[i].text);
        tally(memcmp(begin, samples[i].begin, bytes) == 0, "`%s` has nodes that begin elsewhere", samples[i].text);
        tally(memcmp(end, samples[i].end, bytes) == 0, "`%s` has nodes that end elsewhere", samples[i].text);
    }
}

static void refused_document_samples(void)
{
    static const struct {
        const char *text;
        unsigned number, place;
    } samples[] = {
        {"", 11, 0},
        {"<a>x", 11, 4},
        {"<a/><b/>", 11, 4},
        {"<a></ab>", 11, 6},
        {"<a>]]></a>", 11, 5},
        {"<a>\xED\xA0\x80", 11, 4},
        {"<a>\xEF\xBF\xBE", 11, 5},
        {"<a b=\"c\"/>", 12, 3},
        {"<a:b/>", 12, 2},
        {"<a/><!--", 12, 4},
        {"<a>&#65;", 12, 3},
        {" <?xml version=\"1.0\"?>", 12, 1},
        {"<?xml?>", 12, 0},
        {"<a<!", 12, 2},
        {"<a>&&#", 12, 4},
        {"<?xm", 12, 0},
        {"<a\xC3\x97", 12, 2},
        {"<?xml version=\"1.0\" encoding=\"UTF-16\"?>", 12, 30},
        {"<?xml version=\"1.0\" encoding=\"UTF-1", 11, 34},
        {"<?xml ", 11, 6},
        {"<", 11, 1},
        {"<e/>", 5, 1},
    };
    uint16_t none[4];
    for (size_t i = 0; i < sizeof samples / sizeof samples[0]; i++)
        answer_is(samples[i].text, read_document(samples[i].text, 0, none, none + 1, none + 2, none + 3),
                  REFUSED(samples[i].number, samples[i].place));
}

/* 2026-10: what is told of two texts before composing, and how much scratch the run of their composition needs. */
static void scratch_samples(void)
{
    static const struct {
        const char *outer, *inner;
        unsigned outer_height, outer_paths, inner_height, inner_paths, told, needed;
    } samples[] = {
        {"/a", "/b", 1, 1, 1, 1, 98, 98},
        {"/a", "/b|/c", 1, 1, 1, 2, 112, 112},
        {"/", "/", 1, 1, 1, 1, 98, 84},
        {"/a[not(b)]|/c", "/a/b/d", 3, 2, 1, 1, 126, 126},
        {"/a[not(b/c)]", "/a[b[c]]|/|/d", 3, 1, 3, 3, 154, 154},
    };
    static struct query outer, inner, made;
    const uint8_t given[SAMPLE_NODES] = {1, 1, 1, 1, 1, 1, 1};
    uint8_t marks[SAMPLE_NODES], scratch[1];
    for (size_t i = 0; i < sizeof samples / sizeof samples[0]; i++) {
        compose_texts(&made, samples[i].outer, samples[i].inner);
        read_good(&outer, samples[i].outer);
        read_good(&inner, samples[i].inner);
        answer_is(samples[i].outer, halyardfig_height(outer.items, outer.count), samples[i].outer_height);
        answer_is(samples[i].outer, halyardfig_paths(outer.items, outer.count), samples[i].outer_paths);
        answer_is(samples[i].inner, halyardfig_height(inner.items, inner.count), samples[i].inner_height);
        answer_is(samples[i].inner, halyardfig_paths(inner.items, inner.count), samples[i].inner_paths);
        answer_is("scratch told",
                  halyardfig_scratch(SAMPLE_NODES, samples[i].outer_height, samples[i].outer_paths,
                                     samples[i].inner_height, samples[i].inner_paths),
                  samples[i].told);
        answer_is("scratch needed",
                  halyardfig_run(made.items, made.count, sample_parent, SAMPLE_NODES, sample_kind, SAMPLE_NODES, given,
                                 SAMPLE_NODES, marks, SAMPLE_NODES, scratch, 0),
                  REFUSED(10, samples[i].needed));
    }
}

/* 2026-09: the paper's queries in a row, A on (B on C) and (A on B) on C; and a middle view without guarded steps. */
static void chain_samples(void)
{
    static const char names[] = "site\nregions\neurope\nitem\nquantity\nlocation\ndesc\na\nb\n";
    static const struct {
        const char *texts[3];
        unsigned last_two, first_two;
    } samples[] = {
        {{"//item[location or desc]", "//item[not(quantity)]|//item/location", "/site/regions/europe"}, 1534, 591},
        {{"/a", "/", "/b"}, 52, 85},
    };
    static struct query a, b, c, half, whole;
    struct query *const queries[] = {&a, &b, &c};
    for (size_t i = 0; i < sizeof samples / sizeof samples[0]; i++) {
        for (size_t j = 0; j < 3; j++)
            queries[j]->count =
                halyardfig_read((const uint8_t *)samples[i].texts[j], strlen(samples[i].texts[j]), HALYARDFIG_XPATH_1,
                                (const uint8_t *)names, strlen(names), queries[j]->items, ITEM_ROOM);
        half.count = halyardfig_compose(b.items, b.count, c.items, c.count, half.items, ITEM_ROOM);
        answer_is("A on (B on C)",
                  halyardfig_compose(a.items, a.count, half.items, half.count, whole.items, ITEM_ROOM),
                  samples[i].last_two);
        half.count = halyardfig_compose(a.items, a.count, b.items, b.count, half.items, ITEM_ROOM);
        answer_is("(A on B) on C",
                  halyardfig_compose(half.items, half.count, c.items, c.count, whole.items, ITEM_ROOM),
                  samples[i].first_two);
    }
}

int main(void)
{
    group_start("samples");
    run_samples();
    composed_samples();
    size_samples();
    lean_samples();
    read_samples();
    item_samples();
    items_packed_before();
    printed_sample();
    short_texts();
    document_samples();
    refused_document_samples();
    scratch_samples();
    chain_samples();
    return group_end();
}
