/* A partner's cut: samples, each fault alone, refusals at their edges and in their order, and the model on extracts of
   runs, damaged by one number, on extracts of any marks, and on arbitrary memory. */
#include "halyardfig.h"
#include "offering.h"
#include "twin.h"

#include <string.h>

enum { MOST = 8, SCRATCH_ROOM = 1 << 18, LAST_KIND = 257 };

/* A partner's table with the original number of each node. */
struct cut {
    uint16_t parent[NODE_ROOM];
    uint16_t kind[NODE_ROOM];
    uint16_t node[NODE_ROOM];
    size_t nodes;
};

static struct table table;
static struct cut cut;
static struct query query;

/* The table of docs/SCOPE.md's samples. */
static const struct table seven = {
    .parent = {0, 0, 1, 2, 3, 1, 5}, .kind = {0, 2, 3, 4, 1, 3, 5}, .marks = {1, 1, 1, 1, 1, 1, 1}, .nodes = 7};

/* The lengths of the five columns. */
struct lengths {
    size_t parent, kind, cut_parent, cut_kind, cut_node;
};

/* Makes the call on guarded memory; nothing is written. */
static void cut_is(const char *what, const struct table *of, const struct cut *made, struct lengths lengths,
                   uint64_t expected)
{
    const uint16_t *parent = offer(of->parent, lengths.parent * sizeof *parent);
    const uint16_t *kind = offer(of->kind, lengths.kind * sizeof *kind);
    const uint16_t *cut_parent = offer(made->parent, lengths.cut_parent * sizeof *cut_parent);
    const uint16_t *cut_kind = offer(made->kind, lengths.cut_kind * sizeof *cut_kind);
    const uint16_t *cut_node = offer(made->node, lengths.cut_node * sizeof *cut_node);
    uint64_t answer = halyardfig_is_cut(parent, lengths.parent, kind, lengths.kind, cut_parent, lengths.cut_parent,
                                        cut_kind, lengths.cut_kind, cut_node, lengths.cut_node);
    judge_offered(what, answer, expected, (size_t[]){0, 0, 0, 0, 0});
}

static struct lengths all_of(const struct table *of, const struct cut *made)
{
    return (struct lengths){of->nodes, of->nodes, made->nodes, made->nodes, made->nodes};
}

/* The extract of marks, with its numbers. */
static bool cut_of(const struct table *from, const uint8_t *marks, struct cut *to)
{
    uint64_t answer = halyardfig_extract(from->parent, from->nodes, from->kind, from->nodes, marks, from->nodes,
                                         to->parent, NODE_ROOM, to->kind, NODE_ROOM);
    to->nodes = 0;
    for (size_t i = 0; i < from->nodes; i++)
        if (marks[i] == 1)
            to->node[to->nodes++] = (uint16_t)i;
    return answer == to->nodes || complain("a good extract is refused");
}

/* Extracts of marks of the sample: whole, empty, with sub-trees removed, and with a node that lost all its children. */
static void samples(void)
{
    static const struct {
        const char *what;
        uint8_t marks[7];
        unsigned expected;
    } rows[] = {
        {"all of it", {1, 1, 1, 1, 1, 1, 1}, 1},      {"nothing", {0, 0, 0, 0, 0, 0, 0}, 1},
        {"the first b", {1, 1, 1, 1, 1, 0, 0}, 1},    {"the second b", {1, 1, 0, 0, 0, 1, 1}, 1},
        {"c without text", {1, 1, 1, 1, 0, 0, 0}, 0}, {"b without c", {1, 1, 1, 0, 0, 1, 1}, 0},
        {"b without d", {1, 1, 1, 1, 1, 1, 0}, 0},    {"a alone", {1, 1, 0, 0, 0, 0, 0}, 0},
        {"the root alone", {1, 0, 0, 0, 0, 0, 0}, 0},
    };
    for (size_t i = 0; i < sizeof rows / sizeof rows[0]; i++) {
        cut_of(&seven, rows[i].marks, &cut);
        cut_is(rows[i].what, &seven, &cut, all_of(&seven, &cut), rows[i].expected);
    }
    struct table one = {.marks = {1}, .nodes = 1};
    cut_of(&one, one.marks, &cut);
    cut_is("a root that is a leaf", &one, &cut, all_of(&one, &cut), 1);
}

/* Each fault alone: all else of such a table is right. */
static void faults(void)
{
    static const struct {
        const char *what;
        size_t nodes;
        uint16_t parent[MOST], kind[MOST], node[MOST];
        unsigned expected;
    } rows[] = {
        {"no fault", 4, {0, 0, 1, 2}, {0, 2, 3, 5}, {0, 1, 5, 6}, 1},
        {"a number that is no node", 6, {0, 0, 1, 2, 3, 0}, {0, 2, 3, 4, 1, 0}, {0, 1, 2, 3, 4, 7}, 0},
        {"number 65,535", 6, {0, 0, 1, 2, 3, 0}, {0, 2, 3, 4, 1, 0}, {0, 1, 2, 3, 4, 65535}, 0},
        {"without the root", 3, {0, 0, 1}, {2, 3, 5}, {1, 5, 6}, 0},
        {"numbers that stay equal", 5, {0, 0, 1, 2, 3}, {0, 0, 2, 3, 5}, {0, 0, 1, 5, 6}, 0},
        {"numbers that fall", 7, {0, 0, 1, 2, 1, 4, 5}, {0, 2, 3, 5, 3, 4, 1}, {0, 1, 5, 6, 2, 3, 4}, 0},
        {"another kind", 4, {0, 0, 1, 2}, {0, 2, 3, 1}, {0, 1, 5, 6}, 0},
        {"another kind of the root", 4, {0, 0, 1, 2}, {2, 2, 3, 5}, {0, 1, 5, 6}, 0},
        {"a kind that is none", 4, {0, 0, 1, 2}, {0, 2, 3, 261}, {0, 1, 5, 6}, 0},
        {"another parent", 7, {0, 0, 1, 2, 3, 0, 5}, {0, 2, 3, 4, 1, 3, 5}, {0, 1, 2, 3, 4, 5, 6}, 0},
        {"our parent for its image", 4, {0, 0, 1, 5}, {0, 2, 3, 5}, {0, 1, 5, 6}, 0},
        {"a parent that is no row", 7, {0, 0, 1, 2, 3, 7, 5}, {0, 2, 3, 4, 1, 3, 5}, {0, 1, 2, 3, 4, 5, 6}, 0},
        {"parent 65,535", 7, {0, 0, 1, 2, 3, 65535, 5}, {0, 2, 3, 4, 1, 3, 5}, {0, 1, 2, 3, 4, 5, 6}, 0},
        {"a later parent", 7, {0, 0, 1, 2, 3, 6, 5}, {0, 2, 3, 4, 1, 3, 5}, {0, 1, 2, 3, 4, 5, 6}, 0},
        {"its own parent", 7, {0, 0, 1, 2, 3, 5, 5}, {0, 2, 3, 4, 1, 3, 5}, {0, 1, 2, 3, 4, 5, 6}, 0},
        {"a root with a parent", 4, {1, 0, 1, 2}, {0, 2, 3, 5}, {0, 1, 5, 6}, 0},
        {"a leaf that is none in ours", 3, {0, 0, 1}, {0, 2, 3}, {0, 1, 5}, 0},
        {"a leaf in the middle that is none", 5, {0, 0, 1, 1, 3}, {0, 2, 3, 3, 5}, {0, 1, 2, 5, 6}, 0},
    };
    for (size_t i = 0; i < sizeof rows / sizeof rows[0]; i++) {
        cut.nodes = rows[i].nodes;
        memcpy(cut.parent, rows[i].parent, sizeof rows[i].parent);
        memcpy(cut.kind, rows[i].kind, sizeof rows[i].kind);
        memcpy(cut.node, rows[i].node, sizeof rows[i].node);
        cut_is(rows[i].what, &seven, &cut, all_of(&seven, &cut), rows[i].expected);
    }
}

/* A parent where our number is a row too, and stands for another node. */
static void our_number_is_a_row(void)
{
    static const struct table comb = {.parent = {0, 0, 1, 1, 1, 4, 4, 4}, .kind = {0, 2, 1, 1, 2, 2, 2, 2}, .nodes = 8};
    static const uint8_t marks[8] = {1, 1, 0, 1, 1, 1, 1, 1};
    cut_of(&comb, marks, &cut);
    cut_is("the image", &comb, &cut, all_of(&comb, &cut), 1);
    cut.parent[6] = comb.parent[7];
    cut_is("our number, which is a row", &comb, &cut, all_of(&comb, &cut), 0);
}

/* Line 1 for each column, and before all else. */
static void lengths_are_checked(void)
{
    static const struct lengths unequal[] = {{6, 7, 7, 7, 7}, {7, 6, 7, 7, 7}, {7, 7, 6, 7, 7}, {7, 7, 7, 6, 7},
                                             {7, 7, 7, 7, 6}, {8, 7, 7, 7, 7}, {7, 8, 7, 7, 7}, {7, 7, 8, 7, 7},
                                             {7, 7, 7, 8, 7}, {7, 7, 7, 7, 8}, {0, 7, 7, 7, 7}, {7, 0, 7, 7, 7},
                                             {7, 7, 0, 7, 7}, {7, 7, 7, 0, 7}, {7, 7, 7, 7, 0}, {0, 0, 7, 7, 0},
                                             {7, 7, 0, 0, 1}, {7, 7, 0, 1, 0}, {7, 7, 1, 0, 0}};
    table = seven;
    cut_of(&table, table.marks, &cut);
    for (size_t i = 0; i < sizeof unequal / sizeof unequal[0]; i++)
        cut_is("unequal lengths", &table, &cut, unequal[i], REFUSED(1, 0));
    table.kind[0] = 1;
    for (size_t i = 0; i < sizeof unequal / sizeof unequal[0]; i++)
        cut_is("unequal lengths before a bad table", &table, &cut, unequal[i], REFUSED(1, 0));
}

/* The most nodes of either table, and one more. */
static void too_many_nodes(void)
{
    enum { MANY = NODE_ROOM + 1 };
    static uint16_t column[MANY];
    table.nodes = NODE_ROOM;
    for (size_t i = 0; i < NODE_ROOM; i++) {
        table.parent[i] = (uint16_t)(i == 0 ? 0 : i - 1);
        table.kind[i] = i == 0 ? HALYARDFIG_KIND_ROOT : LAST_KIND;
        table.marks[i] = 1;
    }
    cut_of(&table, table.marks, &cut);
    cut_is("the most nodes", &table, &cut, all_of(&table, &cut), 1);
    cut.kind[NODE_ROOM - 1] = LAST_KIND - 1;
    cut_is("the last of them another", &table, &cut, all_of(&table, &cut), 0);
    for (unsigned ours = 0; ours < 2; ours++) {
        size_t of = ours ? MANY : 1, made = ours ? 1 : MANY;
        const uint16_t *parent = offer(column, of * sizeof *column), *kind = offer(column, of * sizeof *column);
        const uint16_t *cut_parent = offer(column, made * sizeof *column);
        const uint16_t *cut_kind = offer(column, made * sizeof *column);
        const uint16_t *cut_node = offer(column, made * sizeof *column);
        judge_offered(ours ? "too many of ours" : "too many of theirs",
                      halyardfig_is_cut(parent, of, kind, of, cut_parent, made, cut_kind, made, cut_node, made),
                      REFUSED(1, 0), (size_t[]){0, 0, 0, 0, 0});
    }
}

/* Line 7 for ours, whatever the partner's table is. */
static void bad_tables(void)
{
    static const struct {
        const char *what;
        unsigned node, parent, kind, place;
    } bad[] = {
        {"root with a parent", 0, 1, 0, 0}, {"root of kind 1", 0, 0, 1, 0}, {"second root", 3, 2, 0, 3},
        {"kind too large", 3, 2, 258, 3},   {"a later parent", 3, 4, 4, 3}, {"parent outside", 6, 7, 5, 6},
        {"a sibling's child", 6, 2, 5, 6},  {"child of text", 5, 4, 3, 5},  {"no ancestor", 6, 3, 5, 6},
    };
    for (size_t i = 0; i < sizeof bad / sizeof bad[0]; i++) {
        table = seven;
        cut_of(&table, table.marks, &cut);
        table.parent[bad[i].node] = (uint16_t)bad[i].parent;
        table.kind[bad[i].node] = (uint16_t)bad[i].kind;
        cut_is(bad[i].what, &table, &cut, all_of(&table, &cut), REFUSED(7, bad[i].place));
        cut.node[3] = 0;
        cut_is("a bad table before a no", &table, &cut, all_of(&table, &cut), REFUSED(7, bad[i].place));
        cut.nodes = 0;
        cut_is("a bad table before the empty cut", &table, &cut, all_of(&table, &cut), REFUSED(7, bad[i].place));
    }
    table.nodes = 0;
    cut_is("no nodes of ours", &table, &cut, all_of(&table, &cut), REFUSED(7, 0));
}

static bool same_as_model(struct dice *dice)
{
    (void)dice;
    return twin_is_cut(table.parent, table.nodes, table.kind, table.nodes, cut.parent, cut.nodes, cut.kind, cut.nodes,
                       cut.node, cut.nodes);
}

/* One number in one column becomes another: a neighbour's, one more or less, or any. */
static void damage_cut(struct dice *dice)
{
    uint16_t *const columns[] = {cut.parent, cut.kind, cut.node};
    if (cut.nodes == 0)
        return;
    uint16_t *column = columns[below(dice, 3)];
    size_t row = below(dice, cut.nodes), throw = below(dice, 5);
    uint16_t old = column[row];
    if (throw == 0)
        column[row] = (uint16_t)(old + 1);
    else if (throw == 1)
        column[row] = (uint16_t)(old - 1);
    else if (throw == 2)
        column[row] = column[below(dice, cut.nodes)];
    else
        column[row] = throw == 3 ? (uint16_t)below(dice, table.nodes + 2) : (uint16_t)roll(dice);
}

/* The extract of a run that started with every mark 1 is a cut; damaged by one number it is judged as the model does. */
static bool runs_are_cuts(struct dice *dice)
{
    static uint8_t kept[NODE_ROOM], scratch[SCRATCH_ROOM];
    unsigned names = (unsigned)between(dice, 1, 4);
    make_table(dice, &table, between(dice, 1, 60), names);
    make_query(dice, &query, (struct bounds){between(dice, 1, 20), (unsigned)below(dice, 4), 3, names});
    uint64_t answer = halyardfig_run(query.items, query.count, table.parent, table.nodes, table.kind, table.nodes,
                                     table.marks, table.nodes, kept, table.nodes, scratch, sizeof scratch);
    if (halyardfig_refused(answer) != 0)
        return complain("a good run is refused");
    if (!cut_of(&table, kept, &cut) || !same_as_model(dice))
        return false;
    if (twin_answer != 1)
        return complain("what a run kept of a whole document is no cut");
    for (unsigned times = 0; times < 4; times++) {
        if (!cut_of(&table, kept, &cut))
            return false;
        damage_cut(dice);
        if (!same_as_model(dice))
            return false;
    }
    return true;
}

/* Marks of some leaves and of all above them: a cut, and often none where one leaf's mark is taken away. */
static bool leaves_make_cuts(struct dice *dice)
{
    make_table(dice, &table, between(dice, 1, 60), 4);
    unsigned percent = (unsigned)between(dice, 5, 95);
    for (size_t i = 0; i < table.nodes; i++)
        table.marks[i] = 0;
    for (size_t i = table.nodes; i > 0; i--) {
        bool leaf = i == table.nodes || table.parent[i] != i - 1;
        if (leaf && chance(dice, percent))
            table.marks[i - 1] = 1;
        if (table.marks[i - 1] == 1)
            table.marks[table.parent[i - 1]] = 1;
    }
    if (!cut_of(&table, table.marks, &cut) || !same_as_model(dice))
        return false;
    if (twin_answer != 1)
        return complain("leaves and all above them are no cut");
    if (cut.nodes == 0)
        return true;
    table.marks[cut.node[cut.nodes - 1]] = 0;
    return cut_of(&table, table.marks, &cut) && same_as_model(dice);
}

/* Extracts of any closed marks, which may be a no. */
static bool marks_are_judged(struct dice *dice)
{
    make_table(dice, &table, between(dice, 1, 12), 3);
    make_marks(dice, &table, (unsigned)between(dice, 40, 100));
    if (!cut_of(&table, table.marks, &cut))
        return false;
    if (chance(dice, 30))
        damage_cut(dice);
    return same_as_model(dice);
}

/* Any columns of any lengths, mostly close to a cut. */
static bool anything_is_judged(struct dice *dice)
{
    make_table(dice, &table, between(dice, 0, 30), 3);
    make_marks(dice, &table, (unsigned)between(dice, 60, 100));
    cut.nodes = 0;
    if (table.nodes > 0 && !cut_of(&table, table.marks, &cut))
        return false;
    if (chance(dice, 30))
        damage_table(dice, &table);
    if (chance(dice, 20)) {
        cut.nodes = between(dice, 0, 30);
        scatter(dice, cut.parent, cut.nodes * sizeof cut.parent[0]);
        scatter(dice, cut.kind, cut.nodes * sizeof cut.kind[0]);
        for (size_t i = 0; i < cut.nodes; i++)
            cut.node[i] = (uint16_t)(chance(dice, 90) ? i : below(dice, 40));
    }
    size_t lengths[] = {table.nodes, table.nodes, cut.nodes, cut.nodes, cut.nodes};
    if (chance(dice, 10))
        lengths[below(dice, 5)] = between(dice, 0, 40);
    uint64_t first = 0;
    for (unsigned time = 0; time < 2; time++) {
        if (!twin_is_cut(table.parent, lengths[0], table.kind, lengths[1], cut.parent, lengths[2], cut.kind, lengths[3],
                         cut.node, lengths[4]))
            return false;
        first = time == 0 ? twin_answer : first;
    }
    return twin_answer == first || complain("is_cut answers otherwise the second time");
}

int main(void)
{
    group_start("cut");
    samples();
    faults();
    our_number_is_a_row();
    lengths_are_checked();
    too_many_nodes();
    bad_tables();
    try_cases("runs are cuts", 6000, runs_are_cuts);
    try_cases("leaves make cuts", 3000, leaves_make_cuts);
    try_cases("marks are judged", 6000, marks_are_judged);
    try_cases("anything is judged", 12000, anything_is_judged);
    return group_end();
}
