/* The stack that each call uses on its worst inputs, measured on a painted stack. */
#define _GNU_SOURCE
#include "halyardfig.h"
#include "xml_making.h"

#include <stdio.h>
#include <stdlib.h>
#include <string.h>
#include <sys/mman.h>
#include <ucontext.h>
#include <unistd.h>

enum { STACK_BYTES = 1 << 18, PAINT = 0xC7 };
enum { SCRATCH_ROOM = 1 << 25, PRINT_ROOM = 1 << 19, MIXED_TEXTS = 60, NAMED_MOST = 100 };
enum { CHAIN_NODES = 80, LONG_ITEMS = 500 };

enum call {
    READ,
    PRINT,
    PRINT_LONG,
    COMPOSE,
    COMPOSE_LEAN,
    RUN,
    EXTRACT,
    READ_XML,
    WRITE_XML,
    HEIGHT,
    PATHS,
    SCRATCH,
    IS_CUT,
    FOLLOW,
    FOR_ROLE,
    CALLS
};
static const char *const call_names[CALLS] = {"read",    "print",    "print_long", "compose", "compose_lean", "run",
                                              "extract", "read_xml", "write_xml",  "height",  "paths",
                                              "scratch",  "is_cut",    "follow",     "for_role"};

static struct {
    size_t bytes;
    size_t inputs;
    size_t accepted;
    char input[NAMED_MOST];
} worst[CALLS];

/* What the calls are lent. */
static char text[TEXT_ROOM + 1];
static uint32_t version;
static size_t text_length;
static struct list list;
static struct query query, outer, inner, made;
static struct table table, extracted;
static uint8_t kept[NODE_ROOM], scratch[SCRATCH_ROOM], printed[PRINT_ROOM];
static uint16_t columns[COLUMNS][NODE_ROOM];
static uint8_t column_marks[NODE_ROOM];
static size_t column_nodes;
static uint8_t role_views[TEXT_ROOM + 1];
static size_t role_views_length;
static const char *role_text;
static size_t role_text_length;
static uint64_t answer;

static void call_nothing(void)
{
    answer = 0;
}

static void call_read(void)
{
    answer =
        halyardfig_read((const uint8_t *)text, text_length, version, list.bytes, list.length, query.items, ITEM_ROOM);
}

static void call_print(void)
{
    answer = halyardfig_print(query.items, query.count, list.bytes, list.length, printed, PRINT_ROOM);
}

static void call_print_long(void)
{
    answer = halyardfig_print_long(query.items, query.count, list.bytes, list.length, printed, PRINT_ROOM);
}

static void call_compose(void)
{
    answer = halyardfig_compose(outer.items, outer.count, inner.items, inner.count, made.items, ITEM_ROOM);
}

static void call_compose_lean(void)
{
    answer = halyardfig_compose_lean(outer.items, outer.count, inner.items, inner.count, made.items, ITEM_ROOM);
}

static void call_run(void)
{
    answer = halyardfig_run(query.items, query.count, table.parent, table.nodes, table.kind, table.nodes, table.marks,
                            table.nodes, kept, table.nodes, scratch, SCRATCH_ROOM);
}

static void call_extract(void)
{
    answer = halyardfig_extract(table.parent, table.nodes, table.kind, table.nodes, table.marks, table.nodes,
                                extracted.parent, NODE_ROOM, extracted.kind, NODE_ROOM);
}

static void call_read_xml(void)
{
    answer = halyardfig_read_xml((const uint8_t *)text, text_length, list.bytes, list.length, columns[PARENT_COLUMN],
                                 NODE_ROOM, columns[KIND_COLUMN], NODE_ROOM, columns[BEGIN_COLUMN], NODE_ROOM,
                                 columns[END_COLUMN], NODE_ROOM);
}

static void call_write_xml(void)
{
    size_t n = column_nodes;
    answer = halyardfig_write_xml((const uint8_t *)text, text_length, list.bytes, list.length, columns[PARENT_COLUMN],
                                  n, columns[KIND_COLUMN], n, columns[BEGIN_COLUMN], n, columns[END_COLUMN], n,
                                  column_marks, n, printed, PRINT_ROOM);
}

static void call_height(void)
{
    answer = halyardfig_height(query.items, query.count);
}

static void call_paths(void)
{
    answer = halyardfig_paths(query.items, query.count);
}

static void call_scratch(void)
{
    answer = halyardfig_scratch(table.nodes, query.count, 1, query.count, 1);
}

/* On a chain of elements, each with one child, so that a step down leads to one node and every bracket is opened. */
static void call_follow(void)
{
    static uint16_t parent[CHAIN_NODES], kind[CHAIN_NODES];
    static uint8_t given[CHAIN_NODES];
    /* A long path goes back over all its steps for each node but one. */
    size_t nodes = query.count > LONG_ITEMS ? 3 : CHAIN_NODES;
    for (size_t i = 0; i < nodes; i++) {
        parent[i] = (uint16_t)(i == 0 ? 0 : i - 1);
        kind[i] = i == 0 ? HALYARDFIG_KIND_ROOT : HALYARDFIG_KIND_ELEMENT;
        given[i] = 1;
    }
    answer = halyardfig_follow(query.items, query.count, parent, nodes, kind, nodes, given, nodes, kept, nodes);
}

/* The whole table as a cut of itself. */
static void call_is_cut(void)
{
    static uint16_t numbers[NODE_ROOM];
    for (size_t i = 0; i < table.nodes; i++)
        numbers[i] = (uint16_t)i;
    answer = halyardfig_is_cut(table.parent, table.nodes, table.kind, table.nodes, table.parent, table.nodes,
                               table.kind, table.nodes, numbers, table.nodes);
}

static void call_for_role(void)
{
    static const halyardfig_role roles[] = {{1}};
    answer = halyardfig_for_role(role_views, role_views_length, list.bytes, list.length, roles, 1, 0,
                                 (const uint8_t *)role_text, role_text_length, made.items, ITEM_ROOM);
}

/* A painted stack; below it is a page that cannot be touched. */
static uint8_t *stack_memory(void)
{
    static uint8_t *memory;
    if (memory != NULL)
        return memory;
    size_t page = (size_t)sysconf(_SC_PAGESIZE);
    memory = mmap(NULL, STACK_BYTES + page, PROT_NONE, MAP_PRIVATE | MAP_ANONYMOUS, -1, 0);
    if (memory == MAP_FAILED || mprotect(memory + page, STACK_BYTES, PROT_READ | PROT_WRITE) != 0)
        abort();
    memory += page;
    memset(memory, PAINT, STACK_BYTES);
    return memory;
}

/* Makes a call on the painted stack. */
static void call_painted(void (*call)(void))
{
    static ucontext_t here, there;
    if (getcontext(&there) != 0)
        abort();
    there.uc_stack.ss_sp = stack_memory();
    there.uc_stack.ss_size = STACK_BYTES;
    there.uc_link = &here;
    makecontext(&there, call, 0);
    if (swapcontext(&here, &there) != 0)
        abort();
}

/* Bytes from the top of the painted stack down to the lowest word that a call changed; paints them anew. */
static size_t painted_over(void (*call)(void))
{
    uint64_t paint;
    memset(&paint, PAINT, sizeof paint);
    uint8_t *memory = stack_memory();
    call_painted(call);
    const uint64_t *word = (const uint64_t *)memory;
    while (*word == paint)
        word++;
    size_t clean = (size_t)((const uint8_t *)word - memory);
    memset(memory + clean, PAINT, STACK_BYTES - clean);
    return STACK_BYTES - clean;
}

static void measure_call(enum call which, const char *input)
{
    static void (*const calls[CALLS])(void) = {call_read,         call_print,    call_print_long, call_compose,
                                               call_compose_lean, call_run,      call_extract,    call_read_xml,
                                               call_write_xml,    call_height,   call_paths,      call_scratch,
                                               call_is_cut,       call_follow,   call_for_role};
    static char trying[2 * NAMED_MOST];
    static size_t empty;
    if (empty == 0)
        empty = painted_over(call_nothing);
    snprintf(trying, sizeof trying, "%s on %.*s", call_names[which], NAMED_MOST - 1, input);
    now_trying(trying);
    size_t bytes = painted_over(calls[which]) - empty;
    worst[which].inputs++;
    worst[which].accepted += halyardfig_refused(answer) == 0;
    if (bytes <= worst[which].bytes)
        return;
    worst[which].bytes = bytes;
    snprintf(worst[which].input, NAMED_MOST, "%s", input);
}

/* Do all steps of the query lead to one node of a chain at most? Then no search of it goes back. */
static bool leads_to_one(void)
{
    for (size_t i = 0; i < query.count; i++) {
        unsigned axis = query.items[i] >> AXIS_BIT & MOST_AXIS;
        if ((query.items[i] & 7) == 1 && axis != SELF && axis != PARENT && axis != CHILD)
            return false;
    }
    return true;
}

/* Tries the query in memory as it is in every call that takes one. */
static void measure_query(const char *input)
{
    static const uint32_t simple[] = {PATH_ITEM(1), STEP_ITEM(CHILD, FIRST_NAME, 0)};
    measure_call(PRINT, input);
    measure_call(PRINT_LONG, input);
    measure_call(RUN, input);
    measure_call(HEIGHT, input);
    measure_call(PATHS, input);
    measure_call(SCRATCH, input);
    if (leads_to_one())
        measure_call(FOLLOW, input);
    outer = query;
    memcpy(inner.items, simple, sizeof simple);
    inner.count = 2;
    measure_call(COMPOSE, input);
    measure_call(COMPOSE_LEAN, input);
    inner = query;
    memcpy(outer.items, simple, sizeof simple);
    outer.count = 2;
    measure_call(COMPOSE, input);
    measure_call(COMPOSE_LEAN, input);
}

/* Tries a role's query with its one view. */
static void measure_role(const char *view, size_t view_length, const char *asked, size_t asked_length)
{
    memcpy(role_views, view, view_length);
    role_views[view_length] = '\n';
    role_views_length = view_length + 1;
    role_text = asked;
    role_text_length = asked_length;
    measure_call(FOR_ROLE, text);
}

/* The text as a role's query, as its view, and as both. */
static void measure_roles(void)
{
    measure_role("/a", 2, text, text_length);
    measure_role(text, text_length, "/a", 2);
    measure_role(text, text_length, text, text_length);
}

/* Reads the text by both versions, and where the second accepts it goes on with its query. */
static void measure_text(void)
{
    measure_roles();
    version = HALYARDFIG_XPATH_1;
    measure_call(READ, text);
    version = HALYARDFIG_XPATH_2;
    measure_call(READ, text);
    query.count = halyardfig_value(answer);
    if (halyardfig_refused(answer) == 0)
        measure_query(text);
}

static void add(const char *part)
{
    size_t length = strlen(part);
    if (text_length + length > TEXT_ROOM)
        return;
    memcpy(text + text_length, part, length + 1);
    text_length += length;
}

static void add_times(const char *part, size_t times)
{
    for (size_t i = 0; i < times; i++)
        add(part);
}

static void start_text(const char *start)
{
    text_length = 0;
    add(start);
}

/* What opens a bracket; the last byte is the bracket. */
static const char *const openings[] = {
    "a[",
    "(",
    "not(",
    "a and (a or ",
    "a or (a or ",
    "a and (a and ",
    "(a or ",
    "a/b[",
    "a[a][a[",
    "not(a and ",
    "a and not(",
    "a or a and not(",
    "a[a or ",
    "self::a[",
    "a or b[",
    "a and b//a[",
    "(a or a) and (",
    "a//.//*[",
    ".. or a/text()[",
    "not((",
    "a[not(",
    "a and (a or not(a[",
    "node()[(",
    "a or (a and not(a[a or ",
    "a[a and (a or a[",
    "preceding-sibling::a[",
    "descendant::a/ancestor::b[",
    "following-sibling::a or preceding::b/following::a[",
    ".[",
    "a/..[",
    "a and (a or ..[.[",
};
enum { OPENINGS = sizeof openings / sizeof openings[0] };

static unsigned opened(const char *opening)
{
    unsigned count = 0;
    for (const char *byte = opening; *byte != 0; byte++)
        if (strncmp(byte, "node()", 6) == 0 || strncmp(byte, "text()", 6) == 0)
            byte += 5;
        else if (*byte == '[' || *byte == '(')
            count++;
        else if (*byte == ']' || *byte == ')')
            count--;
    return count;
}

/* Writes the closers of all that the text has open. */
static void close_all(void)
{
    static char open[TEXT_ROOM];
    size_t depth = 0;
    for (size_t i = 0; i < text_length; i++)
        if (text[i] == '[' || text[i] == '(')
            open[depth++] = text[i];
        else if (text[i] == ']' || text[i] == ')')
            depth--;
    while (depth > 0)
        add(open[--depth] == '[' ? "]" : ")");
}

/* A text that opens brackets by turns from a choice of openings, up to a depth, then closes them. */
static void measure_nested(const char *const *choice, size_t choices, unsigned depth, bool closes)
{
    start_text("/a[");
    unsigned open = 1;
    for (size_t turn = 0; open < depth; turn = (turn + 1) % choices) {
        const char *opening = choice[turn];
        if (open + opened(opening) > depth)
            opening = "(";
        add(opening);
        open += opened(opening);
    }
    add("a");
    if (closes)
        close_all();
    measure_text();
}

static void measure_depths(const char *const *choice, size_t choices)
{
    static const unsigned depths[] = {HALYARDFIG_NESTING - 4, HALYARDFIG_NESTING - 2, HALYARDFIG_NESTING - 1,
                                      HALYARDFIG_NESTING};
    for (size_t i = 0; i < sizeof depths / sizeof depths[0]; i++)
        measure_nested(choice, choices, depths[i], true);
    measure_nested(choice, choices, HALYARDFIG_NESTING, false);
    measure_nested(choice, choices, HALYARDFIG_NESTING + 1, true);
    measure_nested(choice, choices, 2000, false);
}

static void single_openings(void)
{
    for (size_t i = 0; i < OPENINGS; i++)
        measure_depths(&openings[i], 1);
}

static void paired_openings(void)
{
    for (size_t i = 0; i < OPENINGS; i++)
        for (size_t j = 0; j < OPENINGS; j++) {
            const char *pair[] = {openings[i], openings[j]};
            measure_nested(pair, 2, HALYARDFIG_NESTING, true);
        }
}

static void mixed_openings(struct dice *dice)
{
    for (unsigned i = 0; i < MIXED_TEXTS; i++) {
        const char *mixed[16];
        for (size_t j = 0; j < 16; j++)
            mixed[j] = openings[below(dice, OPENINGS)];
        measure_depths(mixed, 16);
    }
}

/* One part again and again, as often as given and as often as a text can hold. */
static void measure_run_of(const char *start, const char *part, const char *end, size_t times)
{
    size_t most = (TEXT_ROOM - strlen(start) - strlen(end)) / strlen(part);
    const size_t counts[] = {times, most};
    for (size_t i = 0; i < 2; i++) {
        start_text(start);
        add_times(part, counts[i]);
        add(end);
        measure_text();
    }
}

static void long_texts(void)
{
    measure_run_of("/a[a", " or a", "]", 1360);
    measure_run_of("/a[a", " and a", "]", 1360);
    measure_run_of("/a[a", " or a and a", "]", 680);
    measure_run_of("/a[a", " or not(a)", "]", 1020);
    measure_run_of("/a", "[a]", "", 2000);
    measure_run_of("/a", "/a", "", 4094);
    measure_run_of("/a", "[a]/a", "", 1000);
    measure_run_of("/", "|/", "", 4095);
    measure_run_of("/a", "|/a[b]", "", 1000);
    measure_run_of("/a[", "not(", "", 4000);
    measure_run_of("/a[", "(", "", 16000);
    measure_run_of("/a", "[a", "", 4000);
    measure_run_of("/", "a", "", HALYARDFIG_NAME_BYTES);
    measure_run_of("", " ", "/", 100);
    measure_run_of("/a[", "a/", "a]", 4000);
    measure_run_of("/a", "/.", "", 4094);
    measure_run_of("/a[", "./", ".]", 4090);
    measure_run_of("//", ".//", ".", 2000);
}

static void fill_query(uint32_t first, uint32_t second, size_t count)
{
    query.count = count;
    for (size_t i = 0; i < count; i++)
        query.items[i] = i % 2 == 0 ? first : second;
}

/* Items that are no query, as deep as they can pretend to be. */
static void malformed_queries(void)
{
    static const struct {
        const char *what;
        uint32_t first, second;
    } fills[] = {
        {"not alone", NOT_ITEM, NOT_ITEM},
        {"or alone", OR_ITEM, OR_ITEM},
        {"and alone", AND_ITEM, AND_ITEM},
        {"or and by turns", OR_ITEM, AND_ITEM},
        {"or not by turns", OR_ITEM, NOT_ITEM},
        {"paths in predicates", PATH_ITEM(1), STEP_ITEM(CHILD, NODE_TEST, 1)},
        {"many steps and predicates", PATH_ITEM(MOST_COUNT), STEP_ITEM(CHILD, NODE_TEST, MOST_COUNT)},
        {"steps only", STEP_ITEM(CHILD, NODE_TEST, 0), STEP_ITEM(CHILD, NODE_TEST, 0)},
        {"steps with predicates", STEP_ITEM(CHILD, NODE_TEST, 1), STEP_ITEM(CHILD, NODE_TEST, 1)},
        {"paths only", PATH_ITEM(1), PATH_ITEM(1)},
    };
    for (size_t i = 0; i < sizeof fills / sizeof fills[0]; i++) {
        fill_query(fills[i].first, fills[i].second, ITEM_ROOM);
        measure_query(fills[i].what);
        query.items[0] = PATH_ITEM(1);
        query.items[1] = STEP_ITEM(CHILD, NODE_TEST, 1);
        measure_query(fills[i].what);
    }
}

static void long_and_deep_queries(struct dice *dice)
{
    for (unsigned i = 0; i < MIXED_TEXTS; i++) {
        make_long_query(dice, &query, between(dice, ITEM_ROOM - 20, ITEM_ROOM), 2);
        measure_query("a long query");
        make_deep_query(dice, &query, (unsigned)between(dice, HALYARDFIG_NESTING - 6, HALYARDFIG_NESTING), 2);
        measure_query("a deep query");
    }
}

/* Two deep queries composed, as deep as their composition may be. */
static void deep_compositions(struct dice *dice)
{
    for (unsigned i = 0; i < 2 * MIXED_TEXTS; i++) {
        unsigned depth = (unsigned)between(dice, 1, HALYARDFIG_NESTING - 4);
        make_deep_query(dice, &outer, depth, 2);
        make_deep_query(dice, &inner, HALYARDFIG_NESTING - 2 - depth, 2);
        measure_call(COMPOSE, "two deep queries");
        measure_call(COMPOSE_LEAN, "two deep queries");
    }
}

static void make_chain(size_t nodes)
{
    table.nodes = nodes;
    for (size_t i = 0; i < nodes; i++) {
        table.parent[i] = (uint16_t)(i == 0 ? 0 : i - 1);
        table.kind[i] = i == 0 ? HALYARDFIG_KIND_ROOT : HALYARDFIG_KIND_ELEMENT;
        table.marks[i] = 1;
    }
}

static void large_tables(struct dice *dice)
{
    make_chain(NODE_ROOM);
    measure_call(EXTRACT, "a chain");
    measure_call(IS_CUT, "a chain");
    start_text("//a[.//a[../a or not(a)]]");
    measure_text();
    make_table(dice, &table, NODE_ROOM, 2);
    make_marks(dice, &table, 99);
    measure_call(EXTRACT, "a table");
    measure_call(IS_CUT, "a table");
    measure_text();
    table.kind[NODE_ROOM - 1] = HALYARDFIG_KIND_ROOT;
    measure_call(EXTRACT, "a bad table");
    measure_call(IS_CUT, "a bad table");
    measure_text();
}

/* XML: a part as often as given, or as often as a text can hold, then a middle and as many closers. */
static const struct document {
    const char *start, *part, *middle, *closer;
    size_t times;
} documents[] = {
    {"", "<a>", "", "", OPEN_MOST},
    {"", "<a>", "</", "", OPEN_MOST},
    {"", "<a>", "<!", "", OPEN_MOST},
    {"", "<a>", "\xC3\xA9", "", OPEN_MOST},
    {"", "<a>", "", "</a>", NODE_ROOM - 1},
    {"", "<a>", "x", "</a>", NODE_ROOM - 2},
    {"", "<a>", "", "</a>", 0},
    {"", "<a >", "", "</a >", 0},
    {"", "<b>x", "", "</b>", 0},
    {"<a>", "<b/>", "</a>", "", NODE_ROOM - 2},
    {"<a>", "<b/>", "</a>", "", 0},
    {"<a>", "<b/>x", "</a>", "", NODE_ROOM / 2 - 1},
    {"<a>", "<b/>x", "</a>", "", 0},
    {"<a>", "<b>&lt;</b>", "</a>", "", 0},
    {"<a>", "x", "</a>", "", 0},
    {"<a>", "]", "]></a>", "", 0},
    {"<a>", "&quot;", "</a>", "", 0},
    {"<a>", "\xF0\x90\x80\x80", "</a>", "", 0},
    {"<a>", "\xF0\x90\x80\x80", "\xF0\x90", "", 0},
    {"<", "a", "/>", "", 0},
    {"<", "a", ":", "", 0},
    {"<a", " ", "/>", "", 0},
    {"<a></a", "\n", ">", "", 0},
    {"", "\r", "<a/>", "", 0},
    {"<a/>", "\t", "", "", 0},
    {"<?xml", " ", "version='1.0'?><a/>", "", 0},
    {"<?xml version='1.", "0", "'?><a/>", "", 0},
    {"<?xml version='1.0' encoding=", " ", "'UTF-8' standalone='yes'?><a/>", "", 0},
    {"<?xml version='1.0' encoding='", "x", "'", "", 0},
    {"<e", "e", "/>", "", 0},
};

/* Reads the XML text, and writes it back: all of it, the first half of its nodes, and with none marked but the root. A
   text that is not read gets the columns of the one before. */
static void measure_xml(void)
{
    measure_call(READ_XML, text);
    if (halyardfig_refused(answer) == 0)
        column_nodes = halyardfig_value(answer);
    const size_t marked[] = {column_nodes, column_nodes / 2 + 1, 1};
    for (size_t m = 0; m < sizeof marked / sizeof marked[0]; m++) {
        for (size_t i = 0; i < column_nodes; i++)
            column_marks[i] = i < marked[m];
        measure_call(WRITE_XML, text);
    }
}

static void xml_texts(void)
{
    for (size_t i = 0; i < sizeof documents / sizeof documents[0]; i++) {
        const struct document *d = &documents[i];
        size_t room = TEXT_ROOM - strlen(d->start) - strlen(d->middle),
               most = room / (strlen(d->part) + strlen(d->closer));
        size_t times = d->times > 0 && d->times < most ? d->times : most;
        start_text(d->start);
        add_times(d->part, times);
        add(d->middle);
        add_times(d->closer, times);
        measure_xml();
    }
}

/* Random XML texts, as long as they can be and shorter, good and damaged. */
static void random_xml_texts(struct dice *dice)
{
    static struct xml xml;
    for (unsigned i = 0; i < 4 * MIXED_TEXTS; i++) {
        struct growth growth = any_growth(dice);
        growth.bytes = i % 4 == 0 ? TEXT_ROOM : growth.bytes;
        make_xml(dice, &xml, &list, growth);
        if (i % 2 == 0)
            damage_xml(dice, &xml.text);
        memcpy(text, xml.text.bytes, xml.text.length);
        text[xml.text.length] = 0;
        text_length = xml.text.length;
        measure_xml();
    }
}

/* The longest list of names, a and b among them. */
static void many_names(struct dice *dice)
{
    make_list(dice, &list, HALYARDFIG_NAMES);
    single_openings();
    mixed_openings(dice);
    xml_texts();
    random_xml_texts(dice);
}

static void report(enum call which)
{
    printf("stack of %s: %zu bytes at most, of %zu inputs, %zu of them accepted; worst: %.60s\n", call_names[which],
           worst[which].bytes, worst[which].inputs, worst[which].accepted, worst[which].input);
    tally(worst[which].accepted > 0, "%s was never accepted", call_names[which]);
    size_t most = which == FOR_ROLE ? HALYARDFIG_ROLE_STACK_BYTES : HALYARDFIG_STACK_BYTES;
    tally(worst[which].bytes <= most, "%s uses %zu bytes of stack, over %zu, on %s", call_names[which],
          worst[which].bytes, most, worst[which].input);
}

int main(void)
{
    group_start("stack");
    struct dice dice = {group_seed()};
    list_of(&list, "a b");
    make_chain(3);
    single_openings();
    paired_openings();
    mixed_openings(&dice);
    long_texts();
    malformed_queries();
    long_and_deep_queries(&dice);
    deep_compositions(&dice);
    xml_texts();
    random_xml_texts(&dice);
    many_names(&dice);
    large_tables(&dice);
    for (unsigned i = 0; i < CALLS; i++)
        report((enum call)i);
    return group_end();
}
