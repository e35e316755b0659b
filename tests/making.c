/* Random name lists, documents, marks, queries and texts, all of them good; and ways to damage them. */
#include "making.h"

#include <stdlib.h>
#include <string.h>

/* Name lists. */

void list_of(struct list *list, const char *names)
{
    list->length = 0;
    list->count = 0;
    for (const char *byte = names; *byte != 0; byte++) {
        list->bytes[list->length++] = *byte == ' ' ? '\n' : (uint8_t)*byte;
        list->count += *byte == ' ';
    }
    if (list->length > 0) {
        list->bytes[list->length++] = '\n';
        list->count++;
    }
}

static void add_name(struct list *list, const char *name, size_t length)
{
    memcpy(list->bytes + list->length, name, length);
    list->length += length;
    list->bytes[list->length++] = '\n';
    list->count++;
}

/* Words that look like something else, each different from the others. */
static const char *const words[] = {"a",    "b",     "c",     "and", "or",      "not", "node",      "text",
                                    "self", "child", "x.y",   "a-b", "_",       "div", "A",         "parent",
                                    "a.",   "not-",  "nodes", "mod", "comment", "b2",  "following", "ancestor"};
enum { WORDS = sizeof words / sizeof words[0] };

void make_list(struct dice *dice, struct list *list, unsigned names)
{
    list->length = 0;
    list->count = 0;
    size_t first = below(dice, 3) == 0 ? below(dice, WORDS) : 0;
    for (unsigned i = 0; i < names && i < WORDS; i++) {
        const char *word = words[(first + i) % WORDS];
        add_name(list, word, strlen(word));
    }
    for (unsigned i = WORDS; i < names; i++) {
        char made[] = {'n', (char)('A' + i / 26), (char)('a' + i % 26)};
        add_name(list, made, sizeof made);
    }
}

const uint8_t *name_at(const struct list *list, unsigned v, size_t *length)
{
    const uint8_t *start = list->bytes;
    for (; v > 0; v--)
        start = (const uint8_t *)memchr(start, '\n', (size_t)(list->bytes + list->length - start)) + 1;
    *length = (size_t)((const uint8_t *)memchr(start, '\n', (size_t)(list->bytes + list->length - start)) - start);
    return start;
}

/* Documents. */

static uint16_t random_kind(struct dice *dice, unsigned names)
{
    return names == 0 || chance(dice, 20) ? HALYARDFIG_KIND_TEXT
                                          : (uint16_t)(HALYARDFIG_KIND_ELEMENT + below(dice, names));
}

void make_table(struct dice *dice, struct table *table, size_t nodes, unsigned names)
{
    unsigned climb = (unsigned)between(dice, 5, 70);
    table->nodes = nodes;
    for (size_t i = 0; i < nodes; i++) {
        size_t above = i == 0 ? 0 : i - 1;
        while (above != 0 && (table->kind[above] == HALYARDFIG_KIND_TEXT || chance(dice, climb)))
            above = table->parent[above];
        table->parent[i] = (uint16_t)above;
        table->kind[i] = i == 0 ? HALYARDFIG_KIND_ROOT : random_kind(dice, names);
        table->marks[i] = 1;
    }
}

void make_marks(struct dice *dice, struct table *table, unsigned percent)
{
    for (size_t i = 0; i < table->nodes; i++)
        table->marks[i] = (i == 0 || table->marks[table->parent[i]] == 1) && chance(dice, percent);
}

/* Queries. */

struct making {
    struct dice *dice;
    struct query *query;
    struct bounds bounds;
};

static void put(struct making *making, uint32_t item)
{
    if (making->query->count == ITEM_ROOM)
        abort();
    making->query->items[making->query->count++] = item;
}

static bool is_full(const struct making *making)
{
    return making->query->count >= making->bounds.items;
}

static unsigned random_axis(struct dice *dice)
{
    static const unsigned axes[] = {SELF,
                                    CHILD,
                                    CHILD,
                                    CHILD,
                                    CHILD,
                                    PARENT,
                                    PARENT,
                                    DESCENDANT_OR_SELF,
                                    DESCENDANT_OR_SELF,
                                    DESCENDANT_OR_SELF,
                                    ANCESTOR_OR_SELF,
                                    DESCENDANT,
                                    ANCESTOR,
                                    FOLLOWING_SIBLING,
                                    PRECEDING_SIBLING,
                                    FOLLOWING,
                                    PRECEDING};
    return axes[below(dice, sizeof axes / sizeof axes[0])];
}

static unsigned random_test(struct dice *dice, unsigned names)
{
    size_t throw = below(dice, 10);
    if (throw < 3 || (throw > 5 && names == 0))
        return NODE_TEST;
    if (throw < 4)
        return TEXT_TEST;
    return throw < 6 ? ANY_TEST : FIRST_NAME + (unsigned)below(dice, names);
}

static void make_expr(struct making *making, unsigned nesting);

static void make_step(struct making *making, unsigned nesting)
{
    unsigned predicates = 0;
    while (nesting > 0 && !is_full(making) && predicates < 3 && chance(making->dice, 30))
        predicates++;
    put(making, STEP_ITEM(random_axis(making->dice), random_test(making->dice, making->bounds.names), predicates));
    for (unsigned i = 0; i < predicates; i++)
        make_expr(making, nesting - 1);
}

static void make_path(struct making *making, unsigned nesting, unsigned least)
{
    unsigned steps = least;
    while (!is_full(making) && steps < 5 && chance(making->dice, 50))
        steps++;
    put(making, PATH_ITEM(steps));
    for (unsigned i = 0; i < steps; i++)
        make_step(making, nesting);
}

static void make_expr(struct making *making, unsigned nesting)
{
    size_t throw = nesting == 0 || is_full(making) ? 0 : below(making->dice, 9);
    if (throw < 5) {
        make_path(making, nesting, 1);
        return;
    }
    uint32_t operator= throw == 8 ? NOT_ITEM : throw == 7 ? AND_ITEM : OR_ITEM;
    put(making, operator);
    make_expr(making, nesting - 1);
    if (operator!= NOT_ITEM)
        make_expr(making, nesting - 1);
}

void make_query(struct dice *dice, struct query *query, struct bounds bounds)
{
    struct making making = {dice, query, bounds};
    unsigned paths = chance(dice, 60) ? 1 : (unsigned)between(dice, 1, bounds.paths);
    query->count = 0;
    for (unsigned i = 0; i < paths; i++)
        make_path(&making, bounds.nesting, chance(dice, 90));
}

void mix_axes(struct dice *dice, struct query *query)
{
    for (size_t i = 0; i < query->count; i++) {
        uint32_t item = query->items[i], step = STEP_ITEM(0, 0, 0);
        if ((item & 7) == step)
            query->items[i] = (item & ~((uint32_t)MOST_AXIS << AXIS_BIT)) | (uint32_t)below(dice, AXES) << AXIS_BIT;
    }
}

void mix_dots(struct dice *dice, struct query *query)
{
    for (size_t i = 0; i < query->count; i++)
        if ((query->items[i] & 7) == 1 && chance(dice, 30))
            query->items[i] = STEP_ITEM(chance(dice, 50) ? SELF : PARENT, NODE_TEST, query->items[i] >> PREDICATES_BIT);
}

void make_axis_query(struct dice *dice, struct query *query, unsigned axis, unsigned names)
{
    struct making making = {dice, query, {ITEM_ROOM, 1, 1, names}};
    bool within = chance(dice, 50), denied = within && chance(dice, 50);
    uint32_t step = STEP_ITEM(axis, random_test(dice, names), 0);
    query->count = 0;
    put(&making, PATH_ITEM(within ? 1 : 2));
    put(&making, STEP_ITEM(DESCENDANT_OR_SELF, random_test(dice, names), within));
    if (denied)
        put(&making, NOT_ITEM);
    if (within)
        put(&making, PATH_ITEM(1));
    put(&making, step);
}

void pack_as_before(struct query *query)
{
    for (size_t i = 0; i < query->count; i++) {
        uint32_t item = query->items[i];
        if ((item & 7) == STEP_ITEM(0, 0, 0))
            query->items[i] = (item & 7) | (item >> AXIS_BIT & 7) << 3 | (item >> TEST_BIT & MOST_TEST) << 6 |
                              (item >> PREDICATES_BIT) << 15;
    }
}

static void put_leaf(struct making *making)
{
    put(making, PATH_ITEM(1));
    put(making, STEP_ITEM(random_axis(making->dice), random_test(making->dice, making->bounds.names), 0));
}

static void make_deep_expr(struct making *making, unsigned nesting);

/* A step with one predicate that is nested one less deep. */
static void make_deep_path(struct making *making, unsigned nesting)
{
    put(making, PATH_ITEM(1));
    put(making, STEP_ITEM(random_axis(making->dice), random_test(making->dice, making->bounds.names), 1));
    make_deep_expr(making, nesting - 1);
}

/* An operator whose printed round bracket holds the rest: `or` right of `or`, or either right or left of `and`. */
static void make_deep_operator(struct making *making, unsigned nesting)
{
    bool left = chance(making->dice, 30);
    uint32_t high = left || chance(making->dice, 50) ? AND_ITEM : OR_ITEM;
    uint32_t low = left || high == OR_ITEM ? OR_ITEM : chance(making->dice, 50) ? AND_ITEM : OR_ITEM;
    put(making, high);
    if (!left)
        put_leaf(making);
    put(making, low);
    make_deep_path(making, nesting - 1);
    put_leaf(making);
    if (left)
        put_leaf(making);
}

static void make_deep_expr(struct making *making, unsigned nesting)
{
    size_t throw = nesting == 0 ? 0 : below(making->dice, 3);
    if (nesting == 0) {
        put_leaf(making);
    } else if (throw == 1) {
        put(making, NOT_ITEM);
        make_deep_expr(making, nesting - 1);
    } else if (throw == 2 && nesting >= 2) {
        make_deep_operator(making, nesting);
    } else {
        make_deep_path(making, nesting);
    }
}

void make_deep_query(struct dice *dice, struct query *query, unsigned nesting, unsigned names)
{
    struct making making = {dice, query, {ITEM_ROOM, nesting, 1, names}};
    query->count = 0;
    if (nesting == 0)
        put_leaf(&making);
    else
        make_deep_path(&making, nesting);
}

static void make_long_steps(struct making *making)
{
    unsigned steps = (unsigned)making->bounds.items - 1;
    put(making, PATH_ITEM(steps));
    for (unsigned i = 0; i < steps; i++)
        put(making, STEP_ITEM(random_axis(making->dice), random_test(making->dice, making->bounds.names), 0));
}

static void make_long_predicates(struct making *making)
{
    unsigned predicates = (unsigned)(making->bounds.items - 2) / 2;
    put(making, PATH_ITEM(1));
    put(making, STEP_ITEM(CHILD, NODE_TEST, predicates));
    for (unsigned i = 0; i < predicates; i++)
        put_leaf(making);
}

static void make_long_paths(struct making *making)
{
    while (making->query->count + 2 <= making->bounds.items)
        put_leaf(making);
    if (making->query->count < making->bounds.items)
        put(making, PATH_ITEM(0));
}

/* Operators stand before their operands; `or` stands outside `and`, so that no bracket is printed. */
static void make_long_operands(struct making *making)
{
    unsigned operators = (unsigned)(making->bounds.items - 4) / 3;
    unsigned ors = (unsigned)below(making->dice, operators + 1);
    put(making, PATH_ITEM(1));
    put(making, STEP_ITEM(DESCENDANT_OR_SELF, NODE_TEST, 1));
    for (unsigned i = 0; i < operators; i++)
        put(making, i < ors ? OR_ITEM : AND_ITEM);
    for (unsigned i = 0; i <= operators; i++)
        put_leaf(making);
}

void make_long_query(struct dice *dice, struct query *query, size_t most_items, unsigned names)
{
    static void (*const makers[])(struct making *) = {make_long_steps, make_long_predicates, make_long_paths,
                                                      make_long_operands};
    struct making making = {dice, query, {most_items, 1, 1, names}};
    query->count = 0;
    makers[below(dice, sizeof makers / sizeof makers[0])](&making);
}

/* Composes two queries; false where that is refused. */
typedef uint64_t composing(const uint32_t *, size_t, const uint32_t *, size_t, uint32_t *, size_t);

static bool compose_two(composing *compose, const struct query *outer, const struct query *inner, struct query *made)
{
    uint64_t answer = compose(outer->items, outer->count, inner->items, inner->count, made->items, ITEM_ROOM);
    made->count = halyardfig_value(answer);
    return halyardfig_refused(answer) == 0;
}

/* Both groupings; false if one is refused. */
static bool group(composing *compose, const struct views *views, struct query *last_two, struct query *first_two)
{
    static struct query upper, lower;
    return compose_two(compose, &views->middle, &views->inner, &lower) &&
           compose_two(compose, &views->outer, &lower, last_two) &&
           compose_two(compose, &views->outer, &views->middle, &upper) &&
           compose_two(compose, &upper, &views->inner, first_two);
}

void make_views(struct dice *dice, struct views *views, struct bounds bounds)
{
    struct query *const each[] = {&views->outer, &views->middle, &views->inner};
    do
        for (size_t i = 0; i < 3; i++) {
            size_t items = between(dice, 1, bounds.items);
            unsigned nesting = (unsigned)between(dice, 0, bounds.nesting);
            make_query(dice, each[i], (struct bounds){items, nesting, bounds.paths, bounds.names});
            if (chance(dice, 50))
                mix_axes(dice, each[i]);
        }
    while (!group(halyardfig_compose, views, &views->last_two, &views->first_two) ||
           !group(halyardfig_compose_lean, views, &views->lean_last_two, &views->lean_first_two));
}

/* Texts. */

void clear_text(struct text *text)
{
    text->length = 0;
    text->overflowed = false;
}

void put_byte(struct text *text, uint8_t byte)
{
    if (text->length < TEXT_ROOM)
        text->bytes[text->length++] = byte;
    else
        text->overflowed = true;
}

void put_word(struct text *text, const char *word)
{
    for (; *word != 0; word++)
        put_byte(text, (uint8_t)*word);
}

void put_white(struct dice *dice, struct text *text, unsigned percent, bool needed)
{
    static const char spaces[] = "   \t\n\r";
    while (needed || chance(dice, percent)) {
        put_byte(text, (uint8_t)spaces[below(dice, sizeof spaces - 1)]);
        needed = false;
    }
}

void put_soup(struct dice *dice, struct text *text, const char *const *soup, size_t parts, size_t times)
{
    for (; times > 0; times--)
        put_word(text, soup[below(dice, parts)]);
}

struct writing {
    struct dice *dice;
    struct text *text;
    const struct query *query;
    const struct list *list;
    size_t at;
    unsigned loose;
    uint32_t version;
    bool after_word;
};

static bool in_word(uint8_t byte)
{
    return (byte >= 'a' && byte <= 'z') || (byte >= 'A' && byte <= 'Z') || (byte >= '0' && byte <= '9') ||
           byte == '.' || byte == '-' || byte == '_';
}

static void put_space(struct writing *writing, bool needed)
{
    put_white(writing->dice, writing->text, writing->loose, needed);
}

static void put_token_bytes(struct writing *writing, const uint8_t *token, size_t length)
{
    put_space(writing, writing->after_word && in_word(token[0]));
    for (size_t i = 0; i < length; i++)
        put_byte(writing->text, token[i]);
    writing->after_word = in_word(token[0]) && token[0] != '.';
}

static void put_token(struct writing *writing, const char *token)
{
    put_token_bytes(writing, (const uint8_t *)token, strlen(token));
}

static void write_test(struct writing *writing, unsigned test)
{
    if (test == ANY_TEST) {
        put_token(writing, "*");
    } else if (test >= FIRST_NAME) {
        size_t length;
        const uint8_t *name = name_at(writing->list, test - FIRST_NAME, &length);
        put_token_bytes(writing, name, length);
    } else {
        put_token(writing, test == NODE_TEST ? "node" : "text");
        put_token(writing, "(");
        put_token(writing, ")");
    }
}

static void write_axis(struct writing *writing, unsigned axis)
{
    static const char *const names[AXES] = {[SELF] = "self",
                                            [CHILD] = "child",
                                            [PARENT] = "parent",
                                            [DESCENDANT_OR_SELF] = "descendant-or-self",
                                            [ANCESTOR_OR_SELF] = "ancestor-or-self",
                                            [DESCENDANT] = "descendant",
                                            [ANCESTOR] = "ancestor",
                                            [FOLLOWING_SIBLING] = "following-sibling",
                                            [PRECEDING_SIBLING] = "preceding-sibling",
                                            [FOLLOWING] = "following",
                                            [PRECEDING] = "preceding"};
    if (axis == CHILD && chance(writing->dice, 70))
        return;
    put_token(writing, names[axis]);
    put_token(writing, "::");
}

static void write_expr(struct writing *writing);

static void write_step(struct writing *writing, uint32_t item)
{
    unsigned axis = item >> AXIS_BIT & MOST_AXIS, test = item >> TEST_BIT & MOST_TEST,
             predicates = item >> PREDICATES_BIT;
    bool shortens = test == NODE_TEST && (predicates == 0 || writing->version == HALYARDFIG_XPATH_2) &&
                    (axis == SELF || axis == PARENT) && chance(writing->dice, 70);
    if (shortens) {
        put_token(writing, axis == SELF ? "." : "..");
    } else {
        write_axis(writing, axis);
        write_test(writing, test);
    }
    for (; predicates > 0; predicates--) {
        put_token(writing, "[");
        write_expr(writing);
        put_token(writing, "]");
    }
}

/* Steps, some plain descendant steps as `//`; the slash that leads the first one is its own caller's. */
static void write_steps(struct writing *writing, unsigned steps, bool absolute)
{
    bool joined = !absolute;
    for (; steps > 0; steps--) {
        uint32_t item = writing->query->items[writing->at++];
        bool plain = item == STEP_ITEM(DESCENDANT_OR_SELF, NODE_TEST, 0);
        if (plain && !joined && steps > 1 && chance(writing->dice, 80)) {
            put_token(writing, "//");
            joined = true;
            continue;
        }
        if (!joined)
            put_token(writing, "/");
        write_step(writing, item);
        joined = false;
    }
}

static uint32_t item_kind(const struct writing *writing)
{
    return writing->query->items[writing->at] & 7;
}

static void write_bracketed(struct writing *writing, bool needed)
{
    bool brackets = needed || chance(writing->dice, writing->loose / 4);
    if (brackets)
        put_token(writing, "(");
    write_expr(writing);
    if (brackets)
        put_token(writing, ")");
}

static void write_expr(struct writing *writing)
{
    uint32_t item = writing->query->items[writing->at++], kind = item & 7;
    if (kind == NOT_ITEM) {
        put_token(writing, "not");
        put_token(writing, "(");
        write_bracketed(writing, false);
        put_token(writing, ")");
    } else if (kind == AND_ITEM || kind == OR_ITEM) {
        write_bracketed(writing, kind == AND_ITEM && item_kind(writing) == OR_ITEM);
        put_token(writing, kind == AND_ITEM ? "and" : "or");
        write_bracketed(writing, item_kind(writing) == kind || (kind == AND_ITEM && item_kind(writing) == OR_ITEM));
    } else {
        write_steps(writing, item >> 3, false);
    }
}

uint32_t any_version(struct dice *dice)
{
    return chance(dice, 50) ? HALYARDFIG_XPATH_1 : HALYARDFIG_XPATH_2;
}

void make_text(struct dice *dice, struct text *text, const struct query *query, const struct list *list,
               uint32_t version)
{
    struct writing writing = {dice, text, query, list, 0, chance(dice, 50) ? 20 : 0, version, false};
    clear_text(text);
    while (writing.at < query->count) {
        unsigned steps = query->items[writing.at++] >> 3;
        if (steps == 0)
            put_token(&writing, "/");
        write_steps(&writing, steps, true);
        bool by_word = version == HALYARDFIG_XPATH_2 && steps > 0 && chance(dice, 50);
        if (writing.at < query->count)
            put_token(&writing, by_word ? "union" : "|");
    }
    put_space(&writing, false);
}

/* Damage. */

static uint8_t odd_byte(struct dice *dice)
{
    static const char bytes[] = "/.:|[]()*a b\t\nAz09_-@$,'\"=!\r\001\177";
    return chance(dice, 90) ? (uint8_t)bytes[below(dice, sizeof bytes)] : (uint8_t)roll(dice);
}

/* Puts a byte in, takes one out or changes one; answers the new length. */
static size_t damage_bytes(struct dice *dice, uint8_t *bytes, size_t length, size_t room)
{
    size_t place = below(dice, length + 1), throw = below(dice, 3);
    if (throw == 0 && length < room) {
        memmove(bytes + place + 1, bytes + place, length - place);
        bytes[place] = odd_byte(dice);
        return length + 1;
    }
    if (place == length)
        return length;
    if (throw == 1) {
        memmove(bytes + place, bytes + place + 1, length - place - 1);
        return length - 1;
    }
    bytes[place] = odd_byte(dice);
    return length;
}

void damage_text(struct dice *dice, struct text *text)
{
    if (chance(dice, 15))
        text->length = below(dice, text->length + 1);
    for (size_t times = between(dice, 1, 3); times > 0; times--)
        text->length = damage_bytes(dice, text->bytes, text->length, TEXT_ROOM);
}

void damage_list(struct dice *dice, struct list *list)
{
    for (size_t times = between(dice, 1, 2); times > 0; times--)
        list->length = damage_bytes(dice, list->bytes, list->length, LIST_ROOM);
}

static uint32_t odd_item(struct dice *dice)
{
    size_t throw = below(dice, 8);
    if (throw == 0)
        return (uint32_t)roll(dice);
    if (throw < 3)
        return PATH_ITEM(below(dice, 3));
    if (throw < 5)
        return STEP_ITEM(below(dice, MOST_AXIS + 1), below(dice, 4), below(dice, 3));
    return (uint32_t)below(dice, 6);
}

static void damage_item(struct dice *dice, struct query *query)
{
    size_t place = below(dice, query->count), rest = query->count - place;
    switch (below(dice, 4)) {
    case 0:
        query->items[place] ^= (uint32_t)1 << below(dice, 32);
        return;
    case 1:
        query->items[place] = odd_item(dice);
        return;
    case 2:
        memmove(query->items + place, query->items + place + 1, (rest - 1) * sizeof query->items[0]);
        query->count--;
        return;
    default:
        if (query->count == ITEM_ROOM)
            return;
        memmove(query->items + place + 1, query->items + place, rest * sizeof query->items[0]);
        query->items[place] = odd_item(dice);
        query->count++;
    }
}

void damage_query(struct dice *dice, struct query *query)
{
    if (chance(dice, 10))
        query->count = below(dice, query->count + 1);
    for (size_t times = between(dice, 1, 2); times > 0 && query->count > 0; times--)
        damage_item(dice, query);
}

void damage_table(struct dice *dice, struct table *table)
{
    for (size_t times = between(dice, 1, 2); times > 0 && table->nodes > 0; times--) {
        size_t node = below(dice, table->nodes), throw = below(dice, 4);
        if (throw == 0)
            table->parent[node] = (uint16_t)below(dice, table->nodes + 2);
        else if (throw == 1)
            table->kind[node] =
                chance(dice, 50) ? (uint16_t)below(dice, 3) : (uint16_t)(HALYARDFIG_NAMES + below(dice, 4));
        else if (throw == 2)
            table->marks[node] ^= 1;
        else
            table->marks[node] = (uint8_t)roll(dice);
    }
}

void make_token_soup(struct dice *dice, struct text *text, size_t tokens)
{
    static const char *const soup[] = {
        "/", "/",  "//",  ".",     "..",   "::",     "|",    "[",    "]", "(",         ")",        "*",
        "a", "b",  "and", "or",    "not",  "node",   "text", "self", "[", "]",         "(",        ")",
        " ", "\t", "\n",  "child", "not(", "node()", "a",    ":",    "-", "following", "ancestor", "preceding-sibling",
        ".[", "..[", "union", " union /"};
    clear_text(text);
    put_byte(text, '/');
    put_soup(dice, text, soup, sizeof soup / sizeof soup[0], tokens);
}

enum { FOLLOWED_WAYS = 100000 };

bool can_follow(const uint32_t *items, size_t count, size_t nodes)
{
    size_t ways = 1;
    for (size_t i = 0; i < count && ways <= FOLLOWED_WAYS; i++) {
        unsigned axis = items[i] >> AXIS_BIT & MOST_AXIS;
        if ((items[i] & 7) == 1 && axis != SELF && axis != PARENT)
            ways *= nodes;
    }
    return ways <= FOLLOWED_WAYS;
}
