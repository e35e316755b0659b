/* The library against the model of docs/SCOPE.md, on good, damaged and edge input, and the laws between calls. */
#include "halyardfig.h"
#include "paper.h"
#include "twin.h"

#include <string.h>

enum { SCRATCH_ROOM = 1 << 18, SECRET_THROWS = 1000 };

static struct list list;
static struct text text;
static struct query query, outer, inner, composed, lean;
static struct views views;
static struct table table, other;

/* A good query of any sort: small mostly, sometimes deep or long. */
static void make_any_query(struct dice *dice, struct query *made, unsigned names)
{
    size_t throw = below(dice, 20);
    if (throw == 0)
        make_deep_query(dice, made, (unsigned)between(dice, 0, HALYARDFIG_NESTING), names);
    else if (throw == 1)
        make_long_query(dice, made, between(dice, 4, 1500), names);
    else
        make_query(dice, made, (struct bounds){between(dice, 5, 60), (unsigned)between(dice, 0, 5), 4, names});
}

static void make_any_list(struct dice *dice)
{
    make_list(dice, &list, chance(dice, 3) ? HALYARDFIG_NAMES : (unsigned)below(dice, 8));
}

/* Room that is often just enough or just short. */
static size_t near(struct dice *dice, size_t need)
{
    size_t throw = below(dice, 5);
    return throw == 0 && need > 0 ? need - 1 : throw == 1 ? below(dice, need + 1) : throw == 2 ? need : need + 7;
}

static bool reads_good_text(struct dice *dice)
{
    make_any_list(dice);
    make_any_query(dice, &query, list.count);
    if (chance(dice, 30))
        mix_dots(dice, &query);
    uint32_t version = any_version(dice);
    make_text(dice, &text, &query, &list, version);
    size_t room = near(dice, query.count);
    if (!twin_read(dice, text.bytes, text.length, version, list.bytes, list.length, room))
        return false;
    if (text.overflowed || halyardfig_refused(twin_answer) == HALYARDFIG_REFUSED_BRACKET || room < query.count)
        return true;
    bool same = twin_answer == query.count && memcmp(twin_items(), query.items, query.count * sizeof(uint32_t)) == 0;
    if (!same)
        show_text("text", text.bytes, text.length);
    return same || complain("the text is read as another query");
}

static bool reads_damaged_text(struct dice *dice)
{
    make_any_list(dice);
    make_any_query(dice, &query, list.count);
    if (chance(dice, 30))
        mix_dots(dice, &query);
    make_text(dice, &text, &query, &list, any_version(dice));
    damage_text(dice, &text);
    if (chance(dice, 10))
        damage_list(dice, &list);
    return twin_read(dice, text.bytes, text.length, any_version(dice), list.bytes, list.length, ITEM_ROOM);
}

static bool reads_token_soup(struct dice *dice)
{
    list_of(&list, chance(dice, 50) ? "a b and or not node text self child union" : "a");
    make_token_soup(dice, &text, between(dice, 0, 12));
    return twin_read(dice, text.bytes, text.length, any_version(dice), list.bytes, list.length, ITEM_ROOM);
}

/* What version 1 accepts, version 2 reads as the same items; and where version 2 refuses, so does version 1. */
static bool reads_alike_by_both(struct dice *dice)
{
    static uint32_t first[ITEM_ROOM];
    list_of(&list, "a b and or not node text self child union");
    if (chance(dice, 50)) {
        make_query(dice, &query, (struct bounds){between(dice, 1, 20), (unsigned)below(dice, 4), 4, list.count});
        if (chance(dice, 50))
            mix_dots(dice, &query);
        make_text(dice, &text, &query, &list, any_version(dice));
        if (chance(dice, 50))
            damage_text(dice, &text);
    } else {
        make_token_soup(dice, &text, between(dice, 0, 8));
    }
    if (!twin_read(dice, text.bytes, text.length, HALYARDFIG_XPATH_1, list.bytes, list.length, ITEM_ROOM))
        return false;
    uint64_t answer = twin_answer;
    if (halyardfig_refused(answer) == 0)
        memcpy(first, twin_items(), answer * sizeof first[0]);
    if (!twin_read(dice, text.bytes, text.length, HALYARDFIG_XPATH_2, list.bytes, list.length, ITEM_ROOM))
        return false;
    if (halyardfig_refused(answer) != 0)
        return true;
    return (twin_answer == answer && memcmp(first, twin_items(), answer * sizeof first[0]) == 0) ||
           complain("version 2 reads otherwise what version 1 accepts");
}

static bool reads_many_brackets(struct dice *dice)
{
    static const char *const opens[] = {"(", "not(", "a[", "a and (", "a or not(", "a[a][a or b[", ".[", "..[a]["};
    list_of(&list, "a b");
    memcpy(text.bytes, "/a[", 3);
    text.length = 3;
    for (size_t left = between(dice, HALYARDFIG_NESTING - 4, HALYARDFIG_NESTING + 4); left > 0; left--) {
        const char *opening = opens[below(dice, sizeof opens / sizeof opens[0])];
        memcpy(text.bytes + text.length, opening, strlen(opening));
        text.length += strlen(opening);
    }
    text.bytes[text.length++] = 'a';
    for (size_t i = text.length; i > 0; i--)
        if (text.bytes[i - 1] == '[' || text.bytes[i - 1] == '(')
            text.bytes[text.length++] = text.bytes[i - 1] == '[' ? ']' : ')';
    if (chance(dice, 50))
        damage_text(dice, &text);
    return twin_read(dice, text.bytes, text.length, any_version(dice), list.bytes, list.length, ITEM_ROOM);
}

static bool prints_and_reads_back(struct dice *dice, bool brief, size_t *need)
{
    if (!twin_print(dice, brief, query.items, query.count, list.bytes, list.length, 1 << 17))
        return false;
    *need = twin_answer;
    if (halyardfig_refused(twin_answer) != 0)
        return complain("a good query is not printed");
    if (*need <= TEXT_ROOM) {
        memcpy(text.bytes, twin_bytes(), *need);
        if (!twin_read(dice, text.bytes, *need, any_version(dice), list.bytes, list.length, query.count))
            return false;
        if (twin_answer != query.count || memcmp(twin_items(), query.items, query.count * sizeof(uint32_t)) != 0)
            return complain("what was printed is read as another query");
    }
    return twin_print(dice, brief, query.items, query.count, list.bytes, list.length, near(dice, *need));
}

/* Steps for which `.`, `..` and `//` stand, beside those for which they do not. */
static void mix_short(struct dice *dice)
{
    static const uint32_t axes[] = {0, 2, 3, 3}; /* self, parent, descendant-or-self */
    for (size_t i = 0; i < query.count; i++)
        if ((query.items[i] & 7) == 1 && chance(dice, 60))
            query.items[i] = (query.items[i] & ~0xfff8u) | axes[below(dice, 4)] << 3;
}

static bool prints_both_forms(struct dice *dice)
{
    size_t shorter, longer;
    make_any_list(dice);
    make_any_query(dice, &query, list.count);
    if (chance(dice, 60))
        mix_short(dice);
    if (!prints_and_reads_back(dice, true, &shorter) || !prints_and_reads_back(dice, false, &longer))
        return false;
    return shorter <= longer || complain("the short text is longer");
}

static bool prints_damaged_query(struct dice *dice)
{
    make_any_list(dice);
    make_any_query(dice, &query, list.count);
    if (chance(dice, 80))
        damage_query(dice, &query);
    if (chance(dice, 20))
        list.length = list.count = 0;
    return twin_print(dice, chance(dice, 50), query.items, query.count, list.bytes, list.length, 1 << 17);
}

/* Items of the layout before 02, 2026-06 are judged by the one after it. */
static bool judges_items_packed_as_before(struct dice *dice)
{
    make_list(dice, &list, chance(dice, 30) ? HALYARDFIG_NAMES : (unsigned)below(dice, 8));
    make_query(dice, &query, (struct bounds){between(dice, 1, 12), (unsigned)below(dice, 3), 3, list.count});
    pack_as_before(&query);
    make_table(dice, &table, between(dice, 1, 12), 2);
    make_query(dice, &outer, (struct bounds){between(dice, 1, 12), (unsigned)below(dice, 3), 2, 2});
    return twin_print(dice, chance(dice, 50), query.items, query.count, list.bytes, list.length, 1 << 17) &&
           twin_compose(dice, outer.items, outer.count, query.items, query.count, ITEM_ROOM) &&
           twin_compose_lean(dice, outer.items, outer.count, query.items, query.count, ITEM_ROOM) &&
           twin_run(dice, query.items, query.count, table.parent, table.nodes, table.kind, table.nodes, table.marks,
                    table.nodes, table.nodes, SCRATCH_ROOM);
}

static bool composes(struct dice *dice)
{
    unsigned names = (unsigned)below(dice, 5);
    size_t items = between(dice, 1, 40);
    make_query(dice, &outer, (struct bounds){items, (unsigned)below(dice, 4), 3, names});
    make_query(dice, &inner, (struct bounds){50 - items, (unsigned)below(dice, 4), 3, names});
    if (chance(dice, 50))
        mix_axes(dice, &outer);
    if (chance(dice, 50))
        mix_axes(dice, &inner);
    if (chance(dice, 10))
        damage_query(dice, chance(dice, 50) ? &outer : &inner);
    if (!twin_compose(dice, outer.items, outer.count, inner.items, inner.count, ITEM_ROOM + 1000))
        return false;
    size_t need = halyardfig_value(twin_answer);
    if (halyardfig_refused(twin_answer) != 0)
        return true;
    struct measures of_outer = measure(outer.items, outer.count), of_inner = measure(inner.items, inner.count);
    struct measures made = measure(twin_items(), need);
    size_t guard = 2 + (of_inner.nesting > 2 ? of_inner.nesting : 2);
    size_t deepest = of_outer.guard_nesting + guard;
    if (!made.is_query || made.paths != of_outer.paths ||
        made.nesting != (of_outer.nesting > deepest ? of_outer.nesting : deepest) ||
        made.nesting > of_outer.nesting + guard)
        return complain("the composed query does not measure as it should");
    return twin_compose(dice, outer.items, outer.count, inner.items, inner.count, near(dice, need));
}

/* Leanly, the same two queries are refused where they are not composed, or make no larger and no deeper query. */
static bool composes_leanly(struct dice *dice)
{
    unsigned names = (unsigned)below(dice, 5);
    size_t items = between(dice, 1, 40);
    make_query(dice, &outer, (struct bounds){items, (unsigned)below(dice, 4), 3, names});
    make_query(dice, &inner, (struct bounds){50 - items, (unsigned)below(dice, 4), 3, names});
    mix_axes(dice, &outer);
    if (chance(dice, 50))
        mix_axes(dice, &inner);
    if (chance(dice, 10))
        damage_query(dice, chance(dice, 50) ? &outer : &inner);
    uint64_t plain =
        halyardfig_compose(outer.items, outer.count, inner.items, inner.count, composed.items, ITEM_ROOM);
    struct measures of_plain = {0};
    if (halyardfig_refused(plain) == 0)
        of_plain = measure(composed.items, halyardfig_value(plain));
    if (!twin_compose_lean(dice, outer.items, outer.count, inner.items, inner.count, ITEM_ROOM + 1000))
        return false;
    size_t need = halyardfig_value(twin_answer);
    if (halyardfig_refused(twin_answer) != 0)
        return halyardfig_refused(plain) != 0 || complain("a lean composition is refused where compose is not");
    struct measures made = measure(twin_items(), need);
    if (!made.is_query || (halyardfig_refused(plain) == 0 &&
                           (need > halyardfig_value(plain) || made.nesting > of_plain.nesting)))
        return complain("a lean query is larger or deeper than the composed one");
    return twin_compose_lean(dice, outer.items, outer.count, inner.items, inner.count, near(dice, need));
}

static bool composes_at_the_edges(struct dice *dice)
{
    bool deep = chance(dice, 50);
    if (deep) {
        make_deep_query(dice, &outer, (unsigned)between(dice, 0, HALYARDFIG_NESTING), 2);
        make_deep_query(dice, &inner, (unsigned)between(dice, 0, HALYARDFIG_NESTING), 2);
        if (chance(dice, 50))
            mix_axes(dice, &outer);
    } else {
        make_long_query(dice, &outer, between(dice, 4, 300), 2);
        make_long_query(dice, &inner, between(dice, 4, chance(dice, 20) ? ITEM_ROOM : 30), 2);
    }
    return twin_compose(dice, outer.items, outer.count, inner.items, inner.count, ITEM_ROOM) &&
           twin_compose_lean(dice, outer.items, outer.count, inner.items, inner.count, ITEM_ROOM);
}

static bool runs(struct dice *dice)
{
    unsigned names = (unsigned)between(dice, 1, 4);
    make_table(dice, &table, between(dice, 1, 24), names);
    if (chance(dice, 60))
        make_marks(dice, &table, (unsigned)between(dice, 50, 100));
    make_query(dice, &query, (struct bounds){between(dice, 1, 30), (unsigned)below(dice, 5), 3, names});
    if (chance(dice, 50))
        mix_axes(dice, &query);
    if (chance(dice, 10))
        damage_table(dice, &table);
    if (chance(dice, 5))
        damage_query(dice, &query);
    size_t need = table.nodes * 2 * (measure(query.items, query.count).height + 1);
    return twin_run(dice, query.items, query.count, table.parent, table.nodes, table.kind, table.nodes, table.marks,
                    table.nodes, table.nodes, near(dice, need));
}

static bool runs_long_and_deep(struct dice *dice)
{
    make_table(dice, &table, between(dice, 1, 12), 2);
    if (chance(dice, 50))
        make_deep_query(dice, &query, (unsigned)between(dice, 1, HALYARDFIG_NESTING), 2);
    else
        make_long_query(dice, &query, between(dice, 4, 600), 2);
    size_t need = table.nodes * 2 * (measure(query.items, query.count).height + 1);
    return twin_run(dice, query.items, query.count, table.parent, table.nodes, table.kind, table.nodes, table.marks,
                    table.nodes, table.nodes, near(dice, need));
}

static bool extracts(struct dice *dice)
{
    make_table(dice, &table, between(dice, 0, 40), 4);
    make_marks(dice, &table, (unsigned)between(dice, 20, 100));
    if (chance(dice, 20))
        damage_table(dice, &table);
    size_t room = near(dice, table.nodes / 2);
    return twin_extract(dice, table.parent, table.nodes, table.kind, table.nodes, table.marks, table.nodes, room,
                        chance(dice, 95) ? room : room + 1);
}

/* The library's run; marks may be those of the table itself. */
static bool run_on(const struct query *running, const struct table *on, const uint8_t *given, uint8_t *marks)
{
    static uint8_t scratch[SCRATCH_ROOM];
    static uint8_t given_copy[NODE_ROOM];
    memcpy(given_copy, given, on->nodes);
    uint64_t answer = halyardfig_run(running->items, running->count, on->parent, on->nodes, on->kind, on->nodes,
                                     given_copy, on->nodes, marks, on->nodes, scratch, sizeof scratch);
    return halyardfig_refused(answer) == 0 || complain("a good run is refused");
}

static bool extract_from(const struct table *from, const uint8_t *marks, struct table *to)
{
    uint64_t answer = halyardfig_extract(from->parent, from->nodes, from->kind, from->nodes, marks, from->nodes,
                                         to->parent, NODE_ROOM, to->kind, NODE_ROOM);
    to->nodes = halyardfig_value(answer);
    memset(to->marks, 1, NODE_ROOM);
    return halyardfig_refused(answer) == 0 || complain("a good extract is refused");
}

static bool same_tables(const struct table *one, const struct table *two)
{
    return one->nodes == two->nodes && memcmp(one->parent, two->parent, one->nodes * sizeof(uint16_t)) == 0 &&
           memcmp(one->kind, two->kind, one->nodes * sizeof(uint16_t)) == 0;
}

/* Makes an inner, an outer and their composition, within the limits. */
static void make_composition(struct dice *dice, unsigned names)
{
    uint64_t answer;
    do {
        make_query(dice, &outer, (struct bounds){between(dice, 1, 15), (unsigned)below(dice, 4), 2, names});
        make_query(dice, &inner, (struct bounds){between(dice, 1, 12), (unsigned)below(dice, 3), 2, names});
        if (chance(dice, 50))
            mix_axes(dice, &outer);
        if (chance(dice, 50))
            mix_axes(dice, &inner);
        answer = halyardfig_compose(outer.items, outer.count, inner.items, inner.count, composed.items, ITEM_ROOM);
    } while (halyardfig_refused(answer) == HALYARDFIG_REFUSED_ROOM);
    composed.count = halyardfig_value(answer);
    answer = halyardfig_compose_lean(outer.items, outer.count, inner.items, inner.count, lean.items, ITEM_ROOM);
    lean.count = halyardfig_value(answer);
    if (halyardfig_refused(answer) != 0)
        lean.count = 0;
}

/* Makes three views in a row, of which outer and inner are the first and the last. */
static void make_chain(struct dice *dice, unsigned names)
{
    make_views(dice, &views, (struct bounds){8, 2, 2, names});
    outer = views.outer;
    inner = views.inner;
}

static bool show_composition(const struct table *on)
{
    show_items("outer", outer.items, outer.count);
    show_items("inner", inner.items, inner.count);
    show_words("parent", on->parent, on->nodes);
    show_words("kind", on->kind, on->nodes);
    show_bytes("given", on->marks, on->nodes);
    return false;
}

/* Are some of the given marks kept, and not all? */
static bool keeps_some(const struct table *on, const uint8_t *marks)
{
    return memchr(marks, 1, on->nodes) != NULL && memcmp(marks, on->marks, on->nodes) != 0;
}

static bool composition_is_exact(struct dice *dice)
{
    static uint8_t at_once[NODE_ROOM], one_by_one[NODE_ROOM];
    unsigned names = (unsigned)between(dice, 1, 3);
    bool telling = false;
    for (unsigned throws = 0; throws < 4 && !telling; throws++) {
        make_composition(dice, names);
        make_table(dice, &table, between(dice, 1, 60), names);
        make_marks(dice, &table, (unsigned)between(dice, 60, 100));
        if (!run_on(&inner, &table, table.marks, one_by_one) || !run_on(&outer, &table, one_by_one, one_by_one))
            return show_composition(&table);
        telling = keeps_some(&table, one_by_one);
    }
    if (!run_on(&composed, &table, table.marks, at_once))
        return show_composition(&table);
    if (memcmp(at_once, one_by_one, table.nodes) != 0) {
        complain("the composed query keeps other nodes than inner then outer");
        return show_composition(&table);
    }
    if (!run_on(&lean, &table, table.marks, at_once))
        return show_composition(&table);
    if (memcmp(at_once, one_by_one, table.nodes) == 0)
        return true;
    complain("the lean query keeps other nodes than inner then outer");
    return show_composition(&table);
}

/* A run inside marks keeps the nodes that it keeps on the extracted table. */
static bool marks_are_a_document(struct dice *dice)
{
    static struct table part, kept_there, kept_here;
    static uint8_t here[NODE_ROOM], there[NODE_ROOM];
    unsigned names = (unsigned)between(dice, 1, 4);
    make_table(dice, &table, between(dice, 1, 60), names);
    do
        make_marks(dice, &table, (unsigned)between(dice, 60, 100));
    while (table.marks[0] == 0);
    make_query(dice, &query, (struct bounds){between(dice, 1, 30), (unsigned)below(dice, 5), 3, names});
    if (chance(dice, 50))
        mix_axes(dice, &query);
    if (!extract_from(&table, table.marks, &part) || !run_on(&query, &table, table.marks, here) ||
        !run_on(&query, &part, part.marks, there) || !extract_from(&table, here, &kept_here) ||
        !extract_from(&part, there, &kept_there))
        return false;
    return same_tables(&kept_here, &kept_there) || complain("marks and the extracted table differ");
}

/* Another document: some hidden nodes are dropped with all below them, renamed, or followed by new ones. */
static void change_hidden(struct dice *dice, const struct table *from, const uint8_t *kept, struct table *to,
                          unsigned names)
{
    static uint16_t new_number[NODE_ROOM];
    static bool dropped[NODE_ROOM];
    to->nodes = 0;
    for (size_t i = 0; i < from->nodes; i++) {
        bool hidden = kept[i] == 0 && i != 0;
        dropped[i] = i != 0 && (dropped[from->parent[i]] || (hidden && chance(dice, 30)));
        if (dropped[i])
            continue;
        bool renamed = hidden && from->kind[i] != HALYARDFIG_KIND_TEXT && chance(dice, 30);
        to->parent[to->nodes] = new_number[from->parent[i]];
        to->kind[to->nodes] = renamed ? (uint16_t)(HALYARDFIG_KIND_ELEMENT + below(dice, names)) : from->kind[i];
        new_number[i] = (uint16_t)to->nodes++;
        if (from->kind[i] != HALYARDFIG_KIND_TEXT && chance(dice, 10)) {
            to->parent[to->nodes] = new_number[i];
            to->kind[to->nodes++] = (uint16_t)(HALYARDFIG_KIND_TEXT + below(dice, names + 1));
        }
    }
    memset(to->marks, 1, NODE_ROOM);
}

/* Makes two different documents of which inner keeps the same part, and not nothing; false if this throw fails. */
static bool make_secret(struct dice *dice, unsigned names, void (*make_queries)(struct dice *, unsigned))
{
    static struct table seen_one, seen_two;
    static uint8_t one[NODE_ROOM], two[NODE_ROOM];
    make_queries(dice, names);
    make_table(dice, &table, between(dice, 2, 40), names);
    if (!run_on(&inner, &table, table.marks, one))
        return false;
    change_hidden(dice, &table, one, &other, names);
    return run_on(&inner, &other, other.marks, two) && extract_from(&table, one, &seen_one) &&
           extract_from(&other, two, &seen_two) && seen_one.nodes > 0 && same_tables(&seen_one, &seen_two) &&
           !same_tables(&table, &other);
}

/* Does the query show the same of both documents? */
static bool shows_alike(const struct query *running)
{
    static struct table kept_one, kept_two;
    static uint8_t one[NODE_ROOM], two[NODE_ROOM];
    return run_on(running, &table, table.marks, one) && run_on(running, &other, other.marks, two) &&
           extract_from(&table, one, &kept_one) && extract_from(&other, two, &kept_two) &&
           same_tables(&kept_one, &kept_two);
}

/* On documents of which inner keeps the same, the composed query keeps the same. */
static bool composition_keeps_secrets(struct dice *dice)
{
    unsigned throws = 0;
    while (!make_secret(dice, (unsigned)between(dice, 2, 3), make_composition))
        if (++throws == SECRET_THROWS)
            return complain("no two documents were found");
    if (!shows_alike(&composed)) {
        complain("the composed query shows what inner hides");
        return show_composition(&table);
    }
    if (shows_alike(&lean))
        return true;
    complain("the lean query shows what inner hides");
    return show_composition(&table);
}

static bool show_chain(const struct table *on)
{
    show_items("middle", views.middle.items, views.middle.count);
    return show_composition(on);
}

/* Both groupings of three views keep what inner, then middle, then outer keep. */
static bool chain_is_exact(struct dice *dice)
{
    static uint8_t in_turn[NODE_ROOM], grouped[NODE_ROOM];
    unsigned names = (unsigned)between(dice, 1, 3);
    bool telling = false;
    for (unsigned throws = 0; throws < 4 && !telling; throws++) {
        make_chain(dice, names);
        make_table(dice, &table, between(dice, 1, 60), names);
        make_marks(dice, &table, (unsigned)between(dice, 60, 100));
        if (!run_on(&inner, &table, table.marks, in_turn) || !run_on(&views.middle, &table, in_turn, in_turn) ||
            !run_on(&outer, &table, in_turn, in_turn))
            return show_chain(&table);
        telling = keeps_some(&table, in_turn);
    }
    if (!run_on(&views.last_two, &table, table.marks, grouped))
        return show_chain(&table);
    bool last_right = memcmp(grouped, in_turn, table.nodes) == 0;
    if (!run_on(&views.first_two, &table, table.marks, grouped))
        return show_chain(&table);
    if (!last_right || memcmp(grouped, in_turn, table.nodes) != 0) {
        complain("with its %s two grouped the chain keeps other nodes than in turn", last_right ? "first" : "last");
        return show_chain(&table);
    }
    if (!run_on(&views.lean_last_two, &table, table.marks, grouped))
        return show_chain(&table);
    last_right = memcmp(grouped, in_turn, table.nodes) == 0;
    if (!run_on(&views.lean_first_two, &table, table.marks, grouped))
        return show_chain(&table);
    if (last_right && memcmp(grouped, in_turn, table.nodes) == 0)
        return true;
    complain("with its %s two grouped leanly the chain keeps other nodes than in turn", last_right ? "first" : "last");
    return show_chain(&table);
}

/* On documents of which inner keeps the same, both groupings of the chain keep the same. */
static bool chain_keeps_secrets(struct dice *dice)
{
    unsigned throws = 0;
    while (!make_secret(dice, (unsigned)between(dice, 2, 3), make_chain))
        if (++throws == SECRET_THROWS)
            return complain("no two documents were found");
    if (shows_alike(&views.last_two) && shows_alike(&views.first_two) && shows_alike(&views.lean_last_two) &&
        shows_alike(&views.lean_first_two))
        return true;
    complain("the chain shows what inner hides");
    return show_chain(&table);
}

/* Heights and path counts of good and damaged queries. */
static bool measures_queries(struct dice *dice)
{
    make_any_query(dice, &query, 4);
    if (chance(dice, 40))
        damage_query(dice, &query);
    return twin_height(query.items, query.count) && twin_paths(query.items, query.count);
}

/* Scratch by numbers that are often at their limits. */
static bool tells_scratch(struct dice *dice)
{
    size_t numbers[SCRATCH_NUMBERS];
    for (size_t i = 0; i < SCRATCH_NUMBERS; i++) {
        size_t throw = below(dice, 12);
        numbers[i] = throw == 0 ? below(dice, 2) : throw == 1 ? between(dice, 4095, 4097) : between(dice, 1, 4096);
    }
    if (chance(dice, 5))
        numbers[below(dice, SCRATCH_NUMBERS)] = (size_t)roll(dice);
    return twin_scratch(numbers);
}

/* The bytes told for the two queries and the table before they were composed; 0 if a call refuses. */
static size_t told_scratch(void)
{
    uint64_t answer = halyardfig_scratch(
        table.nodes, halyardfig_height(outer.items, outer.count), halyardfig_paths(outer.items, outer.count),
        halyardfig_height(inner.items, inner.count), halyardfig_paths(inner.items, inner.count));
    return halyardfig_refused(answer) == 0 ? halyardfig_value(answer) : 0;
}

/* A run of a composition, lean or not, with exactly the scratch that was told before composing; the memory ends there. */
static bool scratch_is_enough(struct dice *dice)
{
    unsigned names = (unsigned)between(dice, 1, 3);
    do {
        make_any_query(dice, &outer, names);
        make_any_query(dice, &inner, names);
        if (chance(dice, 50))
            mix_axes(dice, &outer);
        composed.count = 0;
        uint64_t made =
            chance(dice, 50)
                ? halyardfig_compose(outer.items, outer.count, inner.items, inner.count, composed.items, ITEM_ROOM)
                : halyardfig_compose_lean(outer.items, outer.count, inner.items, inner.count, composed.items, ITEM_ROOM);
        if (halyardfig_refused(made) == 0)
            composed.count = halyardfig_value(made);
    } while (composed.count == 0);
    make_table(dice, &table, chance(dice, 2) ? NODE_ROOM : between(dice, 1, 40), names);
    make_marks(dice, &table, (unsigned)between(dice, 60, 100));
    size_t bytes = told_scratch();
    if (bytes == 0)
        return complain("no scratch is told for a good composition");
    uint8_t *marks = lend(0, table.nodes), *scratch = lend(1, bytes);
    uint64_t answer = halyardfig_run(composed.items, composed.count, table.parent, table.nodes, table.kind, table.nodes,
                                     table.marks, table.nodes, marks, table.nodes, scratch, bytes);
    if (halyardfig_refused(answer) == 0 && guards_whole())
        return true;
    complain("with the %zu bytes told a run answers %u with %u", bytes, (unsigned)(answer >> 32), (unsigned)answer);
    return show_composition(&table);
}

int main(void)
{
    group_start("model");
    try_cases("read good text", 3000, reads_good_text);
    try_cases("read damaged text", 6000, reads_damaged_text);
    try_cases("read token soup", 20000, reads_token_soup);
    try_cases("texts by both versions", 20000, reads_alike_by_both);
    try_cases("read many brackets", 2000, reads_many_brackets);
    try_cases("print and read back", 2000, prints_both_forms);
    try_cases("print damaged query", 3000, prints_damaged_query);
    try_cases("items packed as before", 3000, judges_items_packed_as_before);
    try_cases("compose", 1500, composes);
    try_cases("compose leanly", 1500, composes_leanly);
    try_cases("compose at the edges", 300, composes_at_the_edges);
    try_cases("run", 3000, runs);
    try_cases("run long and deep queries", 200, runs_long_and_deep);
    try_cases("extract", 3000, extracts);
    try_cases("composition is exact", 3000, composition_is_exact);
    try_cases("marks are a document", 2000, marks_are_a_document);
    try_cases("composition keeps secrets", 2000, composition_keeps_secrets);
    try_cases("height and paths", 3000, measures_queries);
    try_cases("scratch", 5000, tells_scratch);
    try_cases("scratch is enough", 3000, scratch_is_enough);
    try_cases("chain is exact", 2000, chain_is_exact);
    try_cases("chain keeps secrets", 1000, chain_keeps_secrets);
    return group_end();
}
