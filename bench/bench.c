/* Runs and reads the same queries, loads the same XML texts and writes what is kept of them, with the library, libxml2
 * and pugixml, and prints tables of times and ratios. */
#include "sides.h"

#include <stdio.h>
#include <string.h>

/* The documents on which the second engine is timed: its time grows with a power of the nodes. */
enum { LEAST_FOLLOWED = 256, MOST_FOLLOWED = 512 };

static double smaller(double a, double b)
{
    return a < b ? a : b;
}

/* Tables. */

/* Ends a row with how many times the row before took, if there is one; answers the time of this one. */
static double end_row(double micros, double before)
{
    if (before > 0)
        printf("%.2f", micros / before);
    printf(" |\n");
    fflush(stdout);
    return micros;
}

static void head_of_runs(const char *title)
{
    printf("\n### %s\n\n", title);
    printf("| query | items | nodes | kept | ours, us | libxml2, us | pugixml, us | libxml2 / ours | pugixml / ours | "
           "faster / ours |\n");
    printf("|---|---|---|---|---|---|---|---|---|---|\n");
}

static void row_of_run(const char *name, const struct document *document, const struct query *query)
{
    double micros[SIDES];
    size_t kept = time_run(document, query, micros);
    double first = micros[LIBXML2] / micros[OURS], second = micros[PUGIXML] / micros[OURS];
    printf("| %s | %zu | %zu | %zu | %.1f | %.1f | %.1f | %.2f | %.2f | %.2f |\n", name, query->count, document->nodes,
           kept, micros[OURS], micros[LIBXML2], micros[PUGIXML], first, second, smaller(first, second));
    fflush(stdout);
}

/* A row for a query that runs as it is written. */
static void row_of_text(const struct document *document, const char *text)
{
    static struct query query;
    char name[128];
    read_query(document, text, &query);
    snprintf(name, sizeof name, "`%s`", text);
    row_of_run(name, document, &query);
}

/* A row for a plain path that the others get in brackets, where libxml2 goes step by step
   and does not stream the whole document. */
static void row_in_brackets(const struct document *document, const char *text)
{
    static struct query query;
    char name[128];
    read_query(document, text, &query);
    snprintf(query.text, sizeof query.text, "(%s)", text);
    snprintf(name, sizeof name, "`(%s)`", text);
    row_of_run(name, document, &query);
}

/* A row for the composition of two query texts. */
static void row_of_two(const struct document *document, const char *outer_text, const char *inner_text)
{
    static struct query outer, inner, both;
    char name[128];
    read_query(document, outer_text, &outer);
    read_query(document, inner_text, &inner);
    compose(document, &outer, &inner, &both);
    snprintf(name, sizeof name, "`%s` on `%s`", outer_text, inner_text);
    row_of_run(name, document, &both);
}

static void plain_paths(const struct document *document)
{
    static const char *const texts[] = {"/site/regions/europe",
                                        "/site/regions/europe/item",
                                        "/site/regions/europe/item/mailbox/mail/date",
                                        "/site/people/person/name",
                                        "/site/open_auctions/open_auction/bidder/increase",
                                        "/site/*/*/*/*"};
    head_of_runs("Plain child paths");
    for (size_t t = 0; t < sizeof texts / sizeof texts[0]; t++)
        row_of_text(document, texts[t]);
    for (size_t t = 0; t < sizeof texts / sizeof texts[0]; t++)
        row_in_brackets(document, texts[t]);
}

static void compositions(const struct document *document)
{
    static struct query q1, q2, q3, on_one, on_two, both;
    read_query(document, q1_text, &q1);
    read_query(document, q2_text, &q2);
    read_query(document, q3_text, &q3);
    head_of_runs("The queries of the paper on subtree queries, alone and composed");
    row_of_run("Q1", document, &q1);
    row_of_run("Q2", document, &q2);
    row_of_run("Q3", document, &q3);
    compose(document, &q3, &q1, &both);
    row_of_run("Q3 on Q1", document, &both);
    compose(document, &q2, &q1, &on_one);
    row_of_run("Q2 on Q1", document, &on_one);
    compose(document, &q3, &q2, &on_two);
    row_of_run("Q3 on Q2", document, &on_two);
    compose(document, &q3, &on_one, &both);
    row_of_run("Q3 on (Q2 on Q1)", document, &both);
    compose(document, &on_two, &q1, &both);
    row_of_run("(Q3 on Q2) on Q1", document, &both);
}

/* Each composition, and the lean one under it. */
static void lean_compositions(const struct document *document)
{
    static struct query q1, q2, q3, plain, lean, on_two, lean_on_two;
    read_query(document, q1_text, &q1);
    read_query(document, q2_text, &q2);
    read_query(document, q3_text, &q3);
    const struct {
        const char *name, *lean_name;
        const struct query *outer, *lean_outer, *inner;
    } pairs[] = {
        {"Q3 on Q1", "Q3 on Q1, lean", &q3, &q3, &q1},
        {"Q2 on Q1", "Q2 on Q1, lean", &q2, &q2, &q1},
        {"Q3 on Q2", "Q3 on Q2, lean", &q3, &q3, &q2},
        {"(Q3 on Q2) on Q1", "(Q3 on Q2) on Q1, lean twice", &on_two, &lean_on_two, &q1},
    };
    compose(document, &q3, &q2, &on_two);
    compose_leanly(document, &q3, &q2, &lean_on_two);
    head_of_runs("Both compositions, side by side");
    for (size_t i = 0; i < sizeof pairs / sizeof pairs[0]; i++) {
        compose(document, pairs[i].outer, pairs[i].inner, &plain);
        row_of_run(pairs[i].name, document, &plain);
        compose_leanly(document, pairs[i].lean_outer, pairs[i].inner, &lean);
        row_of_run(pairs[i].lean_name, document, &lean);
    }
}

/* A row for a composition, beside the queries that it is composed of, run in turn. */
static void row_in_turn(const struct document *document, const struct composition *composition)
{
    double once, in_turn;
    size_t kept = time_in_turn(document, composition, &once, &in_turn);
    printf("| %s | %zu | %zu | %zu | %.1f | %.1f | %.2f |\n", composition->name, composition->composed.count,
           document->nodes, kept, once, in_turn, once / in_turn);
    fflush(stdout);
}

static void head_in_turn(const char *title)
{
    printf("\n### %s\n\n", title);
    printf("| query | items | nodes | kept | composed, us | in turn, us | composed / in turn |\n"
           "|---|---|---|---|---|---|---|\n");
}

static void compositions_in_turn(const struct document *document)
{
    head_in_turn("Compositions, and the same queries run in turn, ours alone");
    each_composition(document, compose, row_in_turn);
    head_in_turn("Lean compositions, and the same queries run in turn, ours alone");
    each_composition(document, compose_leanly, row_in_turn);
}

/* Doubling. */

enum { LEAST_NODES = 512, LEAST_ITEMS = 256 };

static void doubled_nodes(void)
{
    static struct document document;
    static struct query q2, q3, both;
    head_of_runs("Nodes doubled: Q3 on Q2, documents like XMark");
    for (size_t nodes = LEAST_NODES; nodes <= NODE_ROOM; nodes *= 2) {
        make_xmark(&document, nodes);
        read_query(&document, q2_text, &q2);
        read_query(&document, q3_text, &q3);
        compose(&document, &q3, &q2, &both);
        row_of_run("Q3 on Q2", &document, &both);
    }
}

static void chains(void)
{
    static struct document document;
    head_of_runs("Chains, their nodes doubled");
    for (size_t nodes = LEAST_NODES; nodes <= NODE_ROOM; nodes *= 2) {
        make_chain(&document, nodes);
        row_of_two(&document, "/", "/a");
    }
    row_of_two(&document, "/a/b", "/a/b");
}

/* A text that begins and ends like this and repeats a part between. */
static void repeat(char *text, const char *begin, const char *part, size_t times, const char *end)
{
    char *at = text + sprintf(text, "%s", begin);
    for (; times > 0; times--)
        at += sprintf(at, "%s", part);
    sprintf(at, "%s", end);
}

/* A query that grows by a part; so many items its beginning has, and so many each part. */
struct growing {
    const char *name, *begin, *part, *end;
    size_t begin_items, part_items;
};

static void rows_of_growing(const struct document *document, const struct growing *growing,
                            double (*time)(const struct document *, const struct query *))
{
    static struct query query;
    static char text[TEXT_ROOM + 1];
    double before = 0;
    for (size_t items = LEAST_ITEMS; items <= ITEM_ROOM; items *= 2) {
        repeat(text, growing->begin, growing->part, (items - growing->begin_items) / growing->part_items, growing->end);
        read_query(document, text, &query);
        double micros = time(document, &query);
        printf("| %s | %zu | %zu | %.0f | ", growing->name, query.count, document->nodes, micros);
        before = end_row(micros, before);
    }
}

static const struct growing growths[] = {
    {"steps of a path, `/*/..`", "/site", "/*/..", "", 2, 2},
    {"predicates, `[*]`", "/site", "[*]", "", 2, 2},
    {"operands, ` or *`", "/site[*", " or *", "]", 4, 3},
    {"steps of a path in a predicate, `/*/..`", "/site[.", "/*/..", "]", 4, 2},
};
enum { GROWTHS = sizeof growths / sizeof growths[0] };

/* A path with so many predicates of ten steps, all different and long alike: which of the steps go down, by the binary
   digits of their number. */
static void number_predicates(char *text, size_t times)
{
    char *at = text + sprintf(text, "/site");
    for (size_t number = 0; number < times; number++)
        for (size_t digit = 10; digit-- > 0;)
            at += sprintf(at, "%s%s%s", digit == 9 ? "[" : "/", number >> digit & 1 ? "*" : "..", digit == 0 ? "]" : "");
}

/* Rows for predicates of which none is like another. */
static void rows_of_different(const struct document *document)
{
    static struct query query;
    static char text[TEXT_ROOM + 1];
    double before = 0;
    for (size_t items = LEAST_ITEMS; items <= ITEM_ROOM; items *= 2) {
        number_predicates(text, (items - 2) / 11);
        read_query(document, text, &query);
        double micros = time_own_run(document, &query);
        printf("| predicates of ten steps, all different | %zu | %zu | %.0f | ", query.count, document->nodes, micros);
        before = end_row(micros, before);
    }
}

static void head_of_growing(const char *title)
{
    printf("\n### %s\n\n", title);
    printf("| what grows | items | nodes | us | times the row before |\n|---|---|---|---|---|\n");
}

static void doubled_items(const struct document *document, const struct document *small)
{
    head_of_growing("Items doubled, ours alone");
    for (size_t g = 0; g < GROWTHS; g++)
        rows_of_growing(document, &growths[g], time_own_run);
    rows_of_growing(small, &growths[GROWTHS - 1], time_own_run);
    rows_of_different(document);
    rows_of_different(small);
}

/* The walks that tell how much scratch to lend. */
static void doubled_measures(const struct document *document)
{
    head_of_growing("Height and path count, items doubled");
    for (size_t g = 0; g < GROWTHS; g++)
        rows_of_growing(document, &growths[g], time_own_measures);
}

/* Reading. */

static void row_of_reading(const char *name, const struct document *document, const struct query *query)
{
    double micros[SIDES];
    time_reading(document, query, micros);
    printf("| %s | %zu | %zu | %zu | %.1f | %.1f | %.1f | %.2f | %.2f |\n", name, strlen(query->text), query->count,
           document->names, micros[OURS], micros[LIBXML2], micros[PUGIXML], micros[LIBXML2] / micros[OURS],
           micros[PUGIXML] / micros[OURS]);
    fflush(stdout);
}

/* Rows for the queries and two compositions of them, read with the names of one document. */
static void rows_of_readings(const struct document *document)
{
    static struct query q1, q2, q3, on_one, both;
    read_query(document, q1_text, &q1);
    read_query(document, q2_text, &q2);
    read_query(document, q3_text, &q3);
    compose(document, &q2, &q1, &on_one);
    compose(document, &q3, &on_one, &both);
    row_of_reading("Q1", document, &q1);
    row_of_reading("Q2", document, &q2);
    row_of_reading("Q3", document, &q3);
    row_of_reading("Q2 on Q1, printed", document, &on_one);
    row_of_reading("Q3 on (Q2 on Q1), printed", document, &both);
}

/* The library checks the whole name list at each call; so the texts are read with a long list and with a short one. */
static void readings(const struct document *document)
{
    static const char *const names[] = {"site", "regions", "europe", "item", "quantity", "location", "desc", NULL};
    static struct document few;
    make_names(&few, names);
    printf("\n### Reading a text\n\n");
    printf("| text | bytes | items | names | ours, us | libxml2, us | pugixml, us | libxml2 / ours | pugixml / ours "
           "|\n|---|---|---|---|---|---|---|---|---|\n");
    rows_of_readings(document);
    rows_of_readings(&few);
}

/* Loading. */

enum { LEAST_BYTES = HALYARDFIG_TEXT_BYTES / 8 };

/* A row of one text, with the library's time for the row before, if there is one; answers its time for this one. */
static double row_of_loading(const char *name, const struct xml_text *text, double before)
{
    double micros[SIDES], bytes = (double)text->length;
    time_loading(text, micros);
    printf("| %s | %zu | %zu | %.1f | %.1f | %.1f | %.2f | %.2f | ", name, text->length, text->document->nodes,
           bytes / micros[OURS], bytes / micros[LIBXML2], bytes / micros[PUGIXML], micros[LIBXML2] / micros[OURS],
           micros[PUGIXML] / micros[OURS]);
    return end_row(micros[OURS], before);
}

/* The largest document like XMark whose text has at most so many bytes. */
static void make_xmark_text(struct document *document, size_t bytes, struct xml_text *text)
{
    size_t nodes = NODE_ROOM;
    for (make_xmark(document, nodes); !write_xml(document, bytes, text); make_xmark(document, nodes))
        nodes -= nodes / 64 + 1;
}

static void make_chain_text(struct document *document, size_t nodes, struct xml_text *text)
{
    make_chain(document, nodes);
    if (!write_xml(document, sizeof text->bytes, text))
        fail("does not fit", "the text of a chain");
}

static void loadings(void)
{
    static struct document document;
    static struct xml_text text;
    double before = 0;
    printf("\n### Loading XML, the bytes doubled\n\n");
    printf(
        "| text | bytes | nodes | ours, MB/s | libxml2, MB/s | pugixml, MB/s | libxml2 / ours | pugixml / ours | ours, "
        "times the row before |\n|---|---|---|---|---|---|---|---|---|\n");
    for (size_t bytes = LEAST_BYTES; bytes <= HALYARDFIG_TEXT_BYTES; bytes *= 2) {
        make_xmark_text(&document, bytes, &text);
        before = row_of_loading("like XMark", &text, before);
    }
    before = 0;
    for (size_t nodes = LEAST_NODES; nodes <= NODE_ROOM; nodes *= 2) {
        make_chain_text(&document, nodes, &text);
        before = row_of_loading("chain", &text, before);
    }
}

/* Writing. */

/* A row of what a query keeps of one text, with the library's time for the row before, if there is one; answers its
   time for this one. */
static double row_of_writing(const char *name, const struct xml_text *text, const char *query_text, double before)
{
    static struct query query;
    double micros[SIDES];
    read_query(text->document, query_text, &query);
    size_t bytes = time_writing(text, &query, micros);
    printf("| %s, `%s` | %zu | %zu | %zu | %.1f | %.1f | %.1f | %.2f | %.2f | ", name, query_text, text->length,
           text->document->nodes, bytes, micros[OURS], micros[LIBXML2], micros[PUGIXML], micros[LIBXML2] / micros[OURS],
           micros[PUGIXML] / micros[OURS]);
    return end_row(micros[OURS], before);
}

static void writings(void)
{
    static const char *const views[] = {"/", "//item", "//desc", "//name"};
    static struct document document;
    static struct xml_text text;
    printf("\n### Writing what is kept back to XML, the bytes doubled\n\n");
    printf(
        "| text and view | bytes | nodes | written | ours, us | libxml2, us | pugixml, us | libxml2 / ours | pugixml / "
        "ours | ours, times the row before |\n|---|---|---|---|---|---|---|---|---|---|\n");
    for (size_t v = 0; v < sizeof views / sizeof views[0]; v++) {
        double before = 0;
        for (size_t bytes = LEAST_BYTES; bytes <= HALYARDFIG_TEXT_BYTES; bytes *= 2) {
            make_xmark_text(&document, bytes, &text);
            before = row_of_writing("like XMark", &text, views[v], before);
        }
    }
    double before = 0;
    for (size_t nodes = LEAST_NODES; nodes <= NODE_ROOM; nodes *= 2) {
        make_chain_text(&document, nodes, &text);
        before = row_of_writing("chain", &text, "/", before);
    }
}

/* Axes. */

/* A document of so many nodes. */
typedef void make_document(struct document *document, size_t nodes);

/* A row of one axis, from every node of documents whose nodes are doubled. */
static void row_of_axis(const char *axis, const char *name, make_document *make)
{
    static struct document document;
    static struct query query;
    char text[64];
    double before = 0, most = 0;
    snprintf(text, sizeof text, "/descendant-or-self::node()/%s::node()", axis);
    printf("| %s | %s | ", axis, name);
    for (size_t nodes = LEAST_NODES; nodes <= NODE_ROOM; nodes *= 2) {
        make(&document, nodes);
        read_query(&document, text, &query);
        double micros = time_own_run(&document, &query);
        if (before > 0 && micros / before > most)
            most = micros / before;
        before = micros;
        printf("%.1f | ", micros);
    }
    printf("%.2f |\n", most);
    fflush(stdout);
}

static void axes(void)
{
    printf("\n### Axes from every node, the nodes doubled, ours alone\n\n| axis | document |");
    for (size_t nodes = LEAST_NODES; nodes <= NODE_ROOM; nodes *= 2)
        printf(" %zu nodes, us |", nodes);
    printf(" most, times the one before |\n|---|---|---|---|---|---|---|\n");
    for (size_t a = 0; a < AXES; a++) {
        row_of_axis(axis_names[a], "row", make_row);
        row_of_axis(axis_names[a], "chain", make_chain);
    }
}

/* Cuts. */

static void rows_of_cuts(const char *name, void (*make)(struct document *document, size_t nodes))
{
    static struct document document;
    double before = 0;
    for (size_t nodes = LEAST_NODES; nodes <= NODE_ROOM; nodes *= 2) {
        make(&document, nodes);
        double micros = time_cut(&document);
        printf("| %s | %zu | %.1f | ", name, document.nodes, micros);
        before = end_row(micros, before);
    }
}

static void cuts(void)
{
    printf("\n### Checking a cut, the nodes doubled, ours alone\n\n");
    printf("| document, as a cut of itself | nodes | us | times the row before |\n|---|---|---|---|\n");
    rows_of_cuts("like XMark", make_xmark);
    rows_of_cuts("chain", make_chain);
}

/* The gateway. */

enum { VIEWS = HALYARDFIG_VIEWS, LEAST_VIEW = 64 };

/* As many views as there may be, each a path of child steps, a space and its LF. */
static void make_views(struct views *views, size_t bytes)
{
    views->length = 0;
    for (size_t v = 0; v < VIEWS; v++) {
        for (size_t i = 0; i < bytes - 2; i++)
            views->bytes[views->length++] = i % 2 == 0 ? '/' : 'a';
        views->bytes[views->length++] = ' ';
        views->bytes[views->length++] = '\n';
    }
}

static void roles(void)
{
    static struct views views;
    double before = 0;
    printf("\n### A role's query, the bytes of the views doubled, ours alone\n\n");
    printf("| views | bytes | us | times the row before |\n|---|---|---|---|\n");
    for (size_t bytes = LEAST_VIEW; bytes * VIEWS <= HALYARDFIG_TEXT_BYTES; bytes *= 2) {
        make_views(&views, bytes);
        double micros = time_role(&views);
        printf("| %d | %zu | %.1f | ", VIEWS, views.length, micros);
        before = end_row(micros, before);
    }
}

/* The second engine. */

static void row_of_engines(const struct document *document, const char *name, const char *text)
{
    static struct query query;
    double run, follow;
    read_query(document, text, &query);
    time_engines(document, &query, &run, &follow);
    printf("| %s | %zu | %.1f | %.1f | %.0f |\n", name, document->nodes, run, follow, follow / run);
    fflush(stdout);
}

static void second_engine(void)
{
    static struct document document;
    printf("\n### The two engines, ours alone\n\n");
    printf("| query | nodes | run, us | follow, us | follow / run |\n|---|---|---|---|---|\n");
    for (size_t nodes = LEAST_FOLLOWED; nodes <= MOST_FOLLOWED; nodes *= 2) {
        make_xmark(&document, nodes);
        row_of_engines(&document, "Q1", q1_text);
        row_of_engines(&document, "Q2", q2_text);
        row_of_engines(&document, "Q3", q3_text);
    }
}

int main(void)
{
    static struct document document, small;
    make_xmark(&document, NODE_ROOM);
    make_xmark(&small, LEAST_NODES / 8);
    printf("%s\n", versions());
    plain_paths(&document);
    compositions(&document);
    lean_compositions(&document);
    compositions_in_turn(&document);
    doubled_nodes();
    doubled_items(&document, &small);
    doubled_measures(&document);
    readings(&document);
    loadings();
    writings();
    chains();
    axes();
    cuts();
    roles();
    second_engine();
    return 0;
}
