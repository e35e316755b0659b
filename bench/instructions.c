/* Counts the instructions that calls execute on deep documents whose nodes are doubled, and those of compositions beside
   the runs in turn, and prints tables of them.
   Run by `bench/instructions`, which says in its first argument where the count stands. */
#define _GNU_SOURCE
#include "queries.h"
#include "texts.h"

#include <fcntl.h>
#include <stdio.h>
#include <string.h>
#include <sys/mman.h>
#include <unistd.h>

enum { LEAST_NODES = 512, SIZES = 4 };

/* What a call is lent, with scratch for a query of height 31. */
struct lent {
    struct document document;
    struct query query;
    uint8_t given[NODE_ROOM];
    uint8_t marks[NODE_ROOM];
    size_t scratch_room;
    uint8_t scratch[NODE_ROOM * 2 * 32];
    size_t out_room;
    uint16_t out_parent[NODE_ROOM];
    uint16_t out_kind[NODE_ROOM];
    struct xml_text text;
    uint16_t begin[NODE_ROOM];
    uint16_t end[NODE_ROOM];
    uint8_t written[2 * HALYARDFIG_TEXT_BYTES];
};

/* The work that is counted; its answer is that of the library's call. */
typedef uint64_t work(struct lent *lent);

/* The count of all instructions that this program has executed. */
static const volatile uint64_t *executed;

/* Stands by itself in the program, so that the few instructions of its own that it counts are the same for all work. */
__attribute__((noipa)) static uint64_t count_once(work *once, struct lent *lent, uint64_t *answer)
{
    uint64_t before = *executed;
    *answer = once(lent);
    return *executed - before;
}

/* The counter. */

static uint64_t turns;

/* Two instructions a turn. */
static uint64_t turn(struct lent *lent)
{
    uint64_t left = turns;
    (void)lent;
    __asm__ volatile("1: dec %0; jnz 1b" : "+r"(left));
    return left;
}

static uint64_t count_turns(uint64_t wanted)
{
    uint64_t answer;
    turns = wanted;
    return count_once(turn, NULL, &answer);
}

/* Maps the count, and tries it on a loop of known length. */
static void find_counter(const char *path)
{
    enum { TURNS = 1000 };
    int file = open(path, O_RDONLY);
    void *mapped = mmap(NULL, sizeof *executed, PROT_READ, MAP_SHARED, file, 0);
    if (file < 0 || mapped == MAP_FAILED)
        fail("cannot be mapped", path);
    executed = mapped;
    uint64_t once = count_turns(TURNS), twice = count_turns(2 * TURNS);
    if (twice - once != 2 * TURNS)
        fail("does not count instructions", path);
}

/* What is counted. */

static uint64_t run(struct lent *lent)
{
    const struct document *document = &lent->document;
    return halyardfig_run(lent->query.items, lent->query.count, document->parent, document->nodes, document->kind,
                          document->nodes, lent->given, document->nodes, lent->marks, document->nodes, lent->scratch,
                          lent->scratch_room);
}

static uint64_t extract(struct lent *lent)
{
    const struct document *document = &lent->document;
    return halyardfig_extract(document->parent, document->nodes, document->kind, document->nodes, lent->given,
                              document->nodes, lent->out_parent, lent->out_room, lent->out_kind, lent->out_room);
}

static uint64_t read_text(struct lent *lent)
{
    struct document *document = &lent->document;
    return halyardfig_read_xml(lent->text.bytes, lent->text.length, document->list, document->list_length,
                               document->parent, document->nodes, document->kind, document->nodes, lent->begin,
                               document->nodes, lent->end, document->nodes);
}

static uint64_t write_text(struct lent *lent)
{
    const struct document *document = &lent->document;
    return halyardfig_write_xml(lent->text.bytes, lent->text.length, document->list, document->list_length,
                                document->parent, document->nodes, document->kind, document->nodes, lent->begin,
                                document->nodes, lent->end, document->nodes, lent->given, document->nodes,
                                lent->written, lent->out_room == 0 ? 0 : sizeof lent->written);
}

/* Marks what lies below the elements `end` as no call does it: each node climbs until it meets one, or to the root. */
static uint64_t climb(struct lent *lent)
{
    const struct document *document = &lent->document;
    uint16_t end = HALYARDFIG_KIND_ELEMENT;
    while (strcmp(document->name[end - HALYARDFIG_KIND_ELEMENT], "end") != 0)
        end++;
    for (size_t i = 0; i < document->nodes; i++) {
        size_t at = i;
        while (at != 0 && document->kind[at] != end)
            at = document->parent[at];
        lent->marks[i] = at != 0;
    }
    return 0;
}

/* Changes to what is lent. */

typedef void change(struct lent *lent);

/* The last node, which is a leaf. */
static size_t last(const struct lent *lent)
{
    return lent->document.nodes - 1;
}

static void nothing(struct lent *lent)
{
    (void)lent;
}

static void unmark(struct lent *lent)
{
    lent->given[last(lent)] = 0;
}

static void mark_badly(struct lent *lent)
{
    lent->given[last(lent)] = 2;
}

/* A good parent, which is as far up as can be. */
static void hang_under_root(struct lent *lent)
{
    lent->document.parent[last(lent)] = 0;
}

/* The first leaf is no parent: it is not above the node before, and in a chain it is the last node itself. */
static void hang_under_leaf(struct lent *lent)
{
    uint16_t leaf = 0;
    while (leaf < last(lent) && lent->document.parent[leaf + 1] == leaf)
        leaf++;
    lent->document.parent[last(lent)] = leaf;
}

static void name_badly(struct lent *lent)
{
    lent->document.kind[last(lent)] = HALYARDFIG_KIND_ROOT;
}

static void lend_no_scratch(struct lent *lent)
{
    lent->scratch_room = 0;
}

static void lend_no_room(struct lent *lent)
{
    lent->out_room = 0;
}

/* What is marked is the way to the element `end`, and what lies below it. */
static void mark_way(struct lent *lent)
{
    accepted(run(lent), "a run");
    memcpy(lent->given, lent->marks, sizeof lent->given);
}

/* The document as XML text, under one element, which takes the place of the last node; read, so that its places are
   there. */
static void lend_text(struct lent *lent)
{
    struct document *document = &lent->document;
    for (size_t i = last(lent); i > 1; i--) {
        document->parent[i] = (uint16_t)(document->parent[i - 1] + 1);
        document->kind[i] = document->kind[i - 1];
    }
    document->parent[1] = 0;
    document->kind[1] = HALYARDFIG_KIND_ELEMENT;
    if (!write_xml(document, sizeof lent->text.bytes, &lent->text))
        fail("does not fit", "the text of a deep document");
    accepted(read_text(lent), "the text of a deep document");
}

/* The text ends with a byte that no text has there. */
static void end_badly(struct lent *lent)
{
    lent->text.bytes[lent->text.length - 1] = 0;
}

/* The first half of the nodes is marked. */
static void mark_half(struct lent *lent)
{
    memset(lent->given + lent->document.nodes / 2, 0, lent->document.nodes / 2);
}

/* Tables. */

struct counted {
    const char *name;
    const char *query;
    work *once;
    change *first, *second;
    /* The refusal number that the answer has to have; 0 if the call is accepted. */
    uint32_t refused;
};

static void lend(struct lent *lent, const struct counted *counted, enum shape shape, size_t nodes)
{
    make_deep(&lent->document, nodes, shape);
    read_query(&lent->document, counted->query, &lent->query);
    memset(lent->given, 1, sizeof lent->given);
    lent->scratch_room = sizeof lent->scratch;
    lent->out_room = NODE_ROOM;
    counted->first(lent);
    counted->second(lent);
}

/* A refusal of the table or of the marks has to be at the last node. */
static int is_expected(const struct lent *lent, const struct counted *counted, uint64_t answer)
{
    int at_node = counted->refused == HALYARDFIG_REFUSED_TABLE || counted->refused == HALYARDFIG_REFUSED_MARKS;
    return halyardfig_refused(answer) == counted->refused && (!at_node || halyardfig_place(answer) == last(lent));
}

/* Prints the instructions a node for each size of one shape, and answers the most that a doubling cost. */
static double cell(const struct counted *counted, enum shape shape)
{
    static struct lent lent;
    double before = 0, most = 0;
    size_t nodes = LEAST_NODES;
    for (size_t s = 0; s < SIZES; s++, nodes *= 2) {
        uint64_t answer;
        lend(&lent, counted, shape, nodes);
        double count = (double)count_once(counted->once, &lent, &answer);
        if (!is_expected(&lent, counted, answer))
            fail("another answer", counted->name);
        if (s > 0 && count / before > most)
            most = count / before;
        before = count;
        printf(" %.1f", count / (double)nodes);
    }
    printf(" |");
    return most;
}

static double larger(double a, double b)
{
    return a > b ? a : b;
}

/* Prints a row, and answers the most that a doubling cost. */
static double row(const struct counted *counted)
{
    double most = 0;
    printf("| %s |", counted->name);
    for (enum shape shape = 0; shape < SHAPES; shape++)
        most = larger(most, cell(counted, shape));
    printf(" %.3f |\n", most);
    return most;
}

static void head(const char *title, const char *work)
{
    printf("\n### %s\n\n", title);
    printf("| %s | chain | comb, the leaf before | comb, the leaf behind | leaves at the end | most, times the one "
           "before |\n|---|---|---|---|---|---|\n",
           work);
}

/* Prints a table of calls, and answers the most that a doubling cost. */
static double rows(const char *title, const struct counted *all, size_t count)
{
    double most = 0;
    head(title, "call");
    for (size_t c = 0; c < count; c++)
        most = larger(most, row(&all[c]));
    return most;
}

/* The eleven axes, taken from every node and asked at every node. */
static double axes(void)
{
    static const char *const ways[] = {"/%s::node()", "[%s::node()]"};
    double most = 0;
    head("Axes, instructions a node", "`/descendant-or-self::node()` and");
    for (size_t a = 0; a < AXES; a++)
        for (size_t w = 0; w < sizeof ways / sizeof ways[0]; w++) {
            char part[64], name[68], query[128];
            snprintf(part, sizeof part, ways[w], axis_names[a]);
            snprintf(name, sizeof name, "`%s`", part);
            snprintf(query, sizeof query, "/descendant-or-self::node()%s", part);
            most = larger(most, row(&(struct counted){name, query, run, nothing, nothing, 0}));
        }
    return most;
}

static double calls(void)
{
    static const struct counted all[] = {
        {"run `/`: all below the root", "/", run, nothing, nothing, 0},
        {"run `//end`: all above one deep element and below it", "//end", run, nothing, nothing, 0},
        {"the same, the last node unmarked", "//end", run, unmark, nothing, 0},
        {"run, checks alone: no scratch lent, 10", "/", run, lend_no_scratch, nothing, HALYARDFIG_REFUSED_ROOM},
        {"the same, the last node unmarked", "/", run, lend_no_scratch, unmark, HALYARDFIG_REFUSED_ROOM},
        {"the same, the last node under the root", "/", run, lend_no_scratch, hang_under_root, HALYARDFIG_REFUSED_ROOM},
        {"run, the last node under the first leaf: 7", "/", run, hang_under_leaf, nothing, HALYARDFIG_REFUSED_TABLE},
        {"run, the last node's kind 0: 7", "/", run, name_badly, nothing, HALYARDFIG_REFUSED_TABLE},
        {"run, the last node's mark 2: 8", "/", run, mark_badly, nothing, HALYARDFIG_REFUSED_MARKS},
        {"extract, all marked", "/", extract, nothing, nothing, 0},
        {"extract, the last node unmarked", "/", extract, unmark, nothing, 0},
        {"extract, what `//end` keeps", "//end", extract, mark_way, nothing, 0},
        {"extract, the last node under the root", "/", extract, hang_under_root, nothing, 0},
        {"extract, no room lent: 10", "/", extract, lend_no_room, nothing, HALYARDFIG_REFUSED_ROOM},
        {"extract, the last node under the first leaf: 7", "/", extract, hang_under_leaf, nothing,
         HALYARDFIG_REFUSED_TABLE},
        {"extract, the last node's kind 0: 7", "/", extract, name_badly, nothing, HALYARDFIG_REFUSED_TABLE},
        {"extract, the last node's mark 2: 8", "/", extract, mark_badly, nothing, HALYARDFIG_REFUSED_MARKS},
    };
    return rows("Marking, checks and extract, instructions a node", all, sizeof all / sizeof all[0]);
}

/* Reading the text of a deep document, and writing it back. */
static double texts(void)
{
    static const struct counted all[] = {
        {"read_xml", "/", read_text, lend_text, nothing, 0},
        {"write_xml, all marked", "/", write_text, lend_text, nothing, 0},
        {"write_xml, the first half marked", "/", write_text, lend_text, mark_half, 0},
        {"write_xml, no room lent: 10", "/", write_text, lend_text, lend_no_room, HALYARDFIG_REFUSED_ROOM},
        {"write_xml, a bad byte at the end: 14", "/", write_text, lend_text, end_badly, HALYARDFIG_REFUSED_COLUMNS},
    };
    return rows("XML text read and written back, instructions a node", all, sizeof all / sizeof all[0]);
}

/* What the tables would show of a climb from each node. */
static double climbing(void)
{
    static const struct counted all = {"a climb from each node to `end` or the root", "/", climb, nothing, nothing, 0};
    head("For comparison, what no call does, instructions a node", "work");
    return row(&all);
}

/* Compositions. */

/* The most that a composition may take, in runs in turn. */
static const double most_in_turn = 1.5;

/* The instructions of a run of the query inside the given marks. */
static double count_run(struct lent *lent, const struct query *query)
{
    uint64_t answer;
    lent->query = *query;
    double count = (double)count_once(run, lent, &answer);
    accepted(answer, query->text);
    return count;
}

/* A row for a composition, beside the queries that it is composed of, run in turn. */
static void row_in_turn(const struct document *document, const struct composition *composition)
{
    static struct lent lent;
    static uint8_t marks[NODE_ROOM];
    double in_turn = 0;
    lent.document = *document;
    lent.scratch_room = sizeof lent.scratch;
    memset(lent.given, 1, sizeof lent.given);
    double once = count_run(&lent, &composition->composed);
    memcpy(marks, lent.marks, sizeof marks);
    for (size_t q = 0; q < composition->count; q++) {
        in_turn += count_run(&lent, composition->turns[q]);
        memcpy(lent.given, lent.marks, sizeof lent.given);
    }
    if (memcmp(marks, lent.marks, document->nodes) != 0)
        fail("a composition and the runs in turn differ", composition->name);
    printf("| %s | %zu | %.0f | %.0f | %.2f |\n", composition->name, composition->composed.count, once, in_turn,
           once / in_turn);
    if (once > most_in_turn * in_turn)
        fail("slower than it may be", composition->name);
}

static void head_in_turn(const char *title)
{
    printf("\n### %s\n\n| query | items | composed | in turn | composed / in turn |\n|---|---|---|---|---|\n", title);
}

static void compositions(void)
{
    static struct document document;
    make_xmark(&document, NODE_ROOM);
    head_in_turn("Compositions and the runs in turn, instructions");
    each_composition(&document, compose, row_in_turn);
    head_in_turn("Lean compositions and the runs in turn, instructions");
    each_composition(&document, compose_leanly, row_in_turn);
}

int main(int argc, char **argv)
{
    if (argc != 2)
        fail("wanted", "the file where the count stands");
    find_counter(argv[1]);
    double most = axes();
    most = larger(most, calls());
    most = larger(most, texts());
    if (climbing() <= 2)
        fail("not seen", "a climb from each node");
    compositions();
    if (most > 2)
        fail("not linear", "a row above");
    return 0;
}
