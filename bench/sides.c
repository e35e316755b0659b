/* The library and the other engines, side by side at the same work. */
#include "sides.h"

#include "engines.h"
#include "timing.h"

#include <halyardfig.h>
#include <stdio.h>
#include <string.h>

/* The height of a query is at most a third of its items and a little. */
enum { SCRATCH_ROOM = NODE_ROOM * 2 * (ITEM_ROOM / 3 + 4) };

/* One side with its document and its query, and the marks that it makes; the library has no engine. */
struct side {
    const struct engine *engine;
    const struct document *document;
    const struct query *query;
    void *loaded;
    void *compiled;
    uint8_t marks[NODE_ROOM];
};

static const struct engine *const engines[SIDES] = {NULL, &libxml2_engine, &pugixml_engine};
static struct side sides[SIDES];
static uint8_t scratch[SCRATCH_ROOM], given[NODE_ROOM];

/* Running. */

static void run_own(void *with)
{
    struct side *side = with;
    const struct document *document = side->document;
    size_t n = document->nodes;
    accepted(halyardfig_run(side->query->items, side->query->count, document->parent, n, document->kind, n, given, n,
                            side->marks, n, scratch, SCRATCH_ROOM),
             side->query->text);
}

/* Marks the selected nodes, all above them and all below them: each way up ends at a marked node,
   and what is below a node follows it in the table, where it is noted as whole. */
static void mark_subtrees(const struct document *document, const uint16_t *selected, size_t count, uint8_t *marks)
{
    static uint8_t whole[NODE_ROOM];
    memset(marks, 0, document->nodes);
    memset(whole, 0, document->nodes);
    for (size_t s = 0; s < count; s++) {
        size_t i = selected[s];
        for (size_t up = i; marks[up] == 0; up = document->parent[up])
            marks[up] = 1;
        if (whole[i] == 1)
            continue;
        for (size_t j = i + 1; j < document->nodes && document->parent[j] >= i; j++)
            marks[j] = whole[j] = 1;
    }
}

static void run_engine(void *with)
{
    static uint16_t selected[NODE_ROOM];
    struct side *side = with;
    size_t count = side->engine->select(side->loaded, side->compiled, selected);
    mark_subtrees(side->document, selected, count, side->marks);
}

/* Gives every side its document and its query, and empty marks. */
static void set_up(const struct document *document, const struct query *query)
{
    memset(given, 1, sizeof given);
    for (size_t s = 0; s < SIDES; s++)
        sides[s] = (struct side){.engine = engines[s], .document = document, .query = query};
}

static void load_engines(void)
{
    for (size_t s = OURS + 1; s < SIDES; s++) {
        sides[s].loaded = engines[s]->load(sides[s].document);
        sides[s].compiled = engines[s]->compile(sides[s].query->text);
        if (sides[s].compiled == NULL)
            fail(engines[s]->name, sides[s].query->text);
    }
}

static void unload_engines(void)
{
    for (size_t s = OURS + 1; s < SIDES; s++) {
        engines[s]->discard(sides[s].compiled);
        engines[s]->unload(sides[s].loaded);
    }
}

static void check_marks(void)
{
    for (size_t s = OURS + 1; s < SIDES; s++)
        if (memcmp(sides[OURS].marks, sides[s].marks, sizeof sides[s].marks) != 0)
            fail("other marks than ours", engines[s]->name);
}

static size_t count_marks(const struct side *side)
{
    size_t kept = 0;
    for (size_t i = 0; i < side->document->nodes; i++)
        kept += side->marks[i];
    return kept;
}

size_t time_run(const struct document *document, const struct query *query, double micros[SIDES])
{
    struct work works[SIDES];
    for (size_t s = 0; s < SIDES; s++)
        works[s] = (struct work){s == OURS ? run_own : run_engine, &sides[s]};
    set_up(document, query);
    load_engines();
    time_first(works, SIDES, micros);
    check_marks();
    time_side_by_side(works, SIDES, micros);
    unload_engines();
    return count_marks(&sides[OURS]);
}

double time_own_run(const struct document *document, const struct query *query)
{
    double micros;
    struct work work = {run_own, &sides[OURS]};
    set_up(document, query);
    time_first(&work, 1, &micros);
    time_side_by_side(&work, 1, &micros);
    return micros;
}

/* Queries to run in turn, with the marks that the last one makes and those inside which it runs. */
struct in_turn {
    const struct document *document;
    const struct composition *composition;
    uint8_t marks[NODE_ROOM], within[NODE_ROOM];
};

static void run_in_turn(void *with)
{
    struct in_turn *turns = with;
    const struct document *document = turns->document;
    size_t n = document->nodes;
    memcpy(turns->marks, given, n);
    for (size_t q = 0; q < turns->composition->count; q++) {
        const struct query *query = turns->composition->turns[q];
        memcpy(turns->within, turns->marks, n);
        accepted(halyardfig_run(query->items, query->count, document->parent, n, document->kind, n, turns->within, n,
                                turns->marks, n, scratch, SCRATCH_ROOM),
                 query->text);
    }
}

size_t time_in_turn(const struct document *document, const struct composition *composition, double *once,
                    double *in_turn)
{
    static struct in_turn others;
    double micros[2];
    set_up(document, &composition->composed);
    others = (struct in_turn){.document = document, .composition = composition};
    const struct work works[2] = {{run_own, &sides[OURS]}, {run_in_turn, &others}};
    time_first(works, 2, micros);
    if (memcmp(sides[OURS].marks, others.marks, document->nodes) != 0)
        fail("a composition and the runs in turn differ", composition->name);
    time_side_by_side(works, 2, micros);
    *once = micros[0];
    *in_turn = micros[1];
    return count_marks(&sides[OURS]);
}

static void follow_own(void *with)
{
    struct side *side = with;
    const struct document *document = side->document;
    size_t n = document->nodes;
    accepted(halyardfig_follow(side->query->items, side->query->count, document->parent, n, document->kind, n, given, n,
                               side->marks, n),
             side->query->text);
}

void time_engines(const struct document *document, const struct query *query, double *run, double *follow)
{
    static struct side slow;
    double micros[2];
    set_up(document, query);
    slow = sides[OURS];
    const struct work works[2] = {{run_own, &sides[OURS]}, {follow_own, &slow}};
    time_first(works, 2, micros);
    time_side_by_side(works, 2, micros);
    if (memcmp(sides[OURS].marks, slow.marks, document->nodes) != 0)
        fail("the two engines differ", query->text);
    *run = micros[0];
    *follow = micros[1];
}

static void measure_own(void *with)
{
    const struct side *side = with;
    accepted(halyardfig_height(side->query->items, side->query->count), "a height");
    accepted(halyardfig_paths(side->query->items, side->query->count), "a path count");
}

double time_own_measures(const struct document *document, const struct query *query)
{
    double micros;
    struct work work = {measure_own, &sides[OURS]};
    set_up(document, query);
    time_first(&work, 1, &micros);
    time_side_by_side(&work, 1, &micros);
    return micros;
}

/* Checking a cut. */

static void check_cut(void *with)
{
    static uint16_t numbers[NODE_ROOM];
    const struct document *document = with;
    size_t n = document->nodes;
    for (size_t i = 0; i < n; i++)
        numbers[i] = (uint16_t)i;
    if (halyardfig_is_cut(document->parent, n, document->kind, n, document->parent, n, document->kind, n, numbers, n) !=
        1)
        fail("no cut", "a document of itself");
}

double time_cut(const struct document *document)
{
    double micros;
    struct work work = {check_cut, (void *)document};
    time_first(&work, 1, &micros);
    time_side_by_side(&work, 1, &micros);
    return micros;
}

/* A role's query. */

static void compose_for_role(void *with)
{
    static uint32_t out[ITEM_ROOM];
    static const halyardfig_role role = {1};
    const struct views *views = with;
    accepted(halyardfig_for_role(views->bytes, views->length, (const uint8_t *)"a\n", 2, &role, 1, 0,
                                 (const uint8_t *)"/", 1, out, ITEM_ROOM),
             "a role's query");
}

double time_role(struct views *views)
{
    double micros;
    struct work work = {compose_for_role, views};
    time_first(&work, 1, &micros);
    time_side_by_side(&work, 1, &micros);
    return micros;
}

/* Reading. */

static void read_own(void *with)
{
    static uint32_t items[ITEM_ROOM];
    const struct side *side = with;
    const struct document *document = side->document;
    accepted(halyardfig_read((const uint8_t *)side->query->text, strlen(side->query->text), HALYARDFIG_XPATH_1,
                             document->list, document->list_length, items, ITEM_ROOM),
             side->query->text);
}

static void read_engine(void *with)
{
    const struct side *side = with;
    side->engine->discard(side->engine->compile(side->query->text));
}

void time_reading(const struct document *document, const struct query *query, double micros[SIDES])
{
    struct work works[SIDES];
    for (size_t s = 0; s < SIDES; s++)
        works[s] = (struct work){s == OURS ? read_own : read_engine, &sides[s]};
    set_up(document, query);
    time_first(works, SIDES, micros);
    time_side_by_side(works, SIDES, micros);
}

/* Loading. */

/* The columns that the library writes: parent, kind, begin and end. */
static uint16_t columns[4][NODE_ROOM];

static void load_own(void *with)
{
    const struct xml_text *text = with;
    uint64_t answer =
        halyardfig_read_xml(text->bytes, text->length, text->document->list, text->document->list_length, columns[0],
                            NODE_ROOM, columns[1], NODE_ROOM, columns[2], NODE_ROOM, columns[3], NODE_ROOM);
    if (accepted(answer, "an XML text") != text->document->nodes)
        fail("other nodes than were written", "ours");
}

/* An engine with the text that it reads. */
struct loading {
    const struct engine *engine;
    const struct xml_text *text;
};

static void *parse_text(const struct loading *loading)
{
    void *parsed = loading->engine->parse(loading->text->bytes, loading->text->length);
    if (parsed == NULL)
        fail("does not take an XML text", loading->engine->name);
    return parsed;
}

static void load_engine(void *with)
{
    const struct loading *loading = with;
    loading->engine->release(parse_text(loading));
}

static void check_loading(const struct loading *loading)
{
    void *parsed = parse_text(loading);
    if (loading->engine->count(parsed) != loading->text->document->nodes)
        fail("other nodes than were written", loading->engine->name);
    loading->engine->release(parsed);
}

static void check_columns(const struct document *document)
{
    size_t bytes = document->nodes * sizeof columns[0][0];
    if (memcmp(columns[0], document->parent, bytes) != 0 || memcmp(columns[1], document->kind, bytes) != 0)
        fail("another document than was written", "ours");
}

void time_loading(const struct xml_text *text, double micros[SIDES])
{
    struct loading loadings[SIDES];
    struct work works[SIDES] = {{load_own, (void *)text}};
    load_own((void *)text);
    check_columns(text->document);
    for (size_t s = OURS + 1; s < SIDES; s++) {
        loadings[s] = (struct loading){engines[s], text};
        works[s] = (struct work){load_engine, &loadings[s]};
        check_loading(&loadings[s]);
    }
    time_first(works, SIDES, micros);
    time_side_by_side(works, SIDES, micros);
}

/* Writing. */

/* What is written of a text, for which a side has room; the marks are those of our run. */
struct written {
    struct loading loading;
    size_t length;
    uint8_t bytes[2 * HALYARDFIG_TEXT_BYTES];
};

static struct written writings[SIDES];

static void write_own(void *with)
{
    struct written *written = with;
    const struct xml_text *text = written->loading.text;
    size_t n = text->document->nodes;
    written->length =
        accepted(halyardfig_write_xml(text->bytes, text->length, text->document->list, text->document->list_length,
                                      columns[0], n, columns[1], n, columns[2], n, columns[3], n, sides[OURS].marks, n,
                                      written->bytes, sizeof written->bytes),
                 "an XML text and its columns");
}

static void write_engine(void *with)
{
    struct written *written = with;
    void *parsed = parse_text(&written->loading);
    written->length = written->loading.engine->write(parsed, sides[OURS].marks, written->bytes, sizeof written->bytes);
    written->loading.engine->release(parsed);
}

static void check_writings(void)
{
    for (size_t s = OURS + 1; s < SIDES; s++)
        if (writings[s].length != writings[OURS].length ||
            memcmp(writings[s].bytes, writings[OURS].bytes, writings[s].length) != 0)
            fail("other bytes than ours", engines[s]->name);
}

size_t time_writing(const struct xml_text *text, const struct query *query, double micros[SIDES])
{
    struct work works[SIDES];
    set_up(text->document, query);
    run_own(&sides[OURS]);
    load_own((void *)text);
    for (size_t s = 0; s < SIDES; s++) {
        writings[s].loading = (struct loading){engines[s], text};
        works[s] = (struct work){s == OURS ? write_own : write_engine, &writings[s]};
    }
    time_first(works, SIDES, micros);
    check_writings();
    time_side_by_side(works, SIDES, micros);
    return writings[OURS].length;
}

const char *versions(void)
{
    static char words[64];
    snprintf(words, sizeof words, "%s %s, %s %s", engines[LIBXML2]->name, engines[LIBXML2]->version,
             engines[PUGIXML]->name, engines[PUGIXML]->version);
    return words;
}
