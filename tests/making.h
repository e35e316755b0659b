/* Random name lists, documents, marks, queries and texts, all of them good; and ways to damage them. */
#ifndef MAKING_H
#define MAKING_H

#include "halyardfig.h"
#include "support.h"

/* Room for the largest of each that can be lent. */
enum {
    LIST_ROOM = HALYARDFIG_NAMES_BYTES,
    NODE_ROOM = HALYARDFIG_NODES,
    ITEM_ROOM = HALYARDFIG_QUERY_ITEMS,
    TEXT_ROOM = HALYARDFIG_TEXT_BYTES
};

struct list {
    uint8_t bytes[LIST_ROOM];
    size_t length;
    unsigned count;
};

struct table {
    uint16_t parent[NODE_ROOM];
    uint16_t kind[NODE_ROOM];
    uint8_t marks[NODE_ROOM];
    size_t nodes;
};

struct query {
    uint32_t items[ITEM_ROOM];
    size_t count;
};

struct text {
    uint8_t bytes[TEXT_ROOM];
    size_t length;
    bool overflowed;
};

/* How large a random query may be. */
struct bounds {
    size_t items;
    unsigned nesting;
    unsigned paths;
    unsigned names;
};

/* The items, by the layout of docs/SCOPE.md, "The query in memory". */
enum { AND_ITEM = 2, OR_ITEM = 3, NOT_ITEM = 4 };
enum {
    SELF,
    CHILD,
    PARENT,
    DESCENDANT_OR_SELF,
    ANCESTOR_OR_SELF,
    DESCENDANT,
    ANCESTOR,
    FOLLOWING_SIBLING,
    PRECEDING_SIBLING,
    FOLLOWING,
    PRECEDING,
    AXES
};
enum { NODE_TEST = 0, TEXT_TEST = 1, FIRST_NAME = 2, ANY_TEST = 258, MOST_TEST = 511, MOST_COUNT = 8191 };
enum { AXIS_BIT = 3, TEST_BIT = 7, PREDICATES_BIT = 16, MOST_AXIS = 15 };
#define PATH_ITEM(steps) ((uint32_t)(steps) << 3)
#define STEP_ITEM(axis, test, predicates)                                                                              \
    (1 | (uint32_t)(axis) << AXIS_BIT | (uint32_t)(test) << TEST_BIT | (uint32_t)(predicates) << PREDICATES_BIT)

void list_of(struct list *list, const char *names);
void make_list(struct dice *dice, struct list *list, unsigned names);
void make_table(struct dice *dice, struct table *table, size_t nodes, unsigned names);
void make_marks(struct dice *dice, struct table *table, unsigned percent);
void make_query(struct dice *dice, struct query *query, struct bounds bounds);

/* Can a call of halyardfig_follow be waited for? Its time grows as the nodes to the power of the steps that lead to
   several. */
bool can_follow(const uint32_t *items, size_t count, size_t nodes);

/* Gives each step another axis, all axes alike probable. */
void mix_axes(struct dice *dice, struct query *query);

/* Makes some steps self and parent steps with node(), which `.` and `..` are short for. */
void mix_dots(struct dice *dice, struct query *query);

/* Nodes of some test anywhere, then one step along one axis, or such a step in a predicate. */
void make_axis_query(struct dice *dice, struct query *query, unsigned axis, unsigned names);

/* Packs the steps as 01 did before 02, 2026-06: the axis in 3 bits, the other fields one bit lower. Axes over 4 lose
 * their high bit. */
void pack_as_before(struct query *query);

/* A query whose brackets are nested exactly so deep, of mixed kinds. */
void make_deep_query(struct dice *dice, struct query *query, unsigned nesting, unsigned names);

/* A query that is one long run of some kind: steps, predicates, paths, or left-grouped operands. */
void make_long_query(struct dice *dice, struct query *query, size_t most_items, unsigned names);

/* Three views in a row, and both their groupings: outer on (middle on inner), and (outer on middle) on inner; the same
   composed leanly. */
struct views {
    struct query outer, middle, inner, last_two, first_two, lean_last_two, lean_first_two;
};

/* Makes three queries within the bounds of which neither grouping is refused; half of them have every axis alike. */
void make_views(struct dice *dice, struct views *views, struct bounds bounds);

/* Writing a text: what is past its room is left out, and the text says so. */
void clear_text(struct text *text);
void put_byte(struct text *text, uint8_t byte);
void put_word(struct text *text, const char *word);

/* White space of every kind, as long as the percentage is thrown; at least one where it is needed. */
void put_white(struct dice *dice, struct text *text, unsigned percent, bool needed);

/* Parts of a choice in any order, so many times. */
void put_soup(struct dice *dice, struct text *text, const char *const *soup, size_t parts, size_t times);

/* A text of the query with random abbreviations, white space and superfluous brackets, for this version of XPath. */
void make_text(struct dice *dice, struct text *text, const struct query *query, const struct list *list,
               uint32_t version);

/* One of the versions of XPath. */
uint32_t any_version(struct dice *dice);

/* The bytes of name v and their number. */
const uint8_t *name_at(const struct list *list, unsigned v, size_t *length);

/* Each changes a few places: good input becomes nearly good. */
void damage_text(struct dice *dice, struct text *text);
void damage_query(struct dice *dice, struct query *query);
void damage_list(struct dice *dice, struct list *list);
void damage_table(struct dice *dice, struct table *table);

/* A text of tokens in any order. */
void make_token_soup(struct dice *dice, struct text *text, size_t tokens);

#endif
