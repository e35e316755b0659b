/* Queries: read, composed and printed by the library. */
#include "queries.h"

#include <halyardfig.h>
#include <stdio.h>
#include <stdlib.h>
#include <string.h>

const char *const axis_names[AXES] = {"self",
                                      "child",
                                      "parent",
                                      "descendant-or-self",
                                      "ancestor-or-self",
                                      "descendant",
                                      "ancestor",
                                      "following-sibling",
                                      "preceding-sibling",
                                      "following",
                                      "preceding"};

const char q1_text[] = "/site/regions/europe";
const char q2_text[] = "//item[not(quantity)]|//item/location";
const char q3_text[] = "//item[location or desc]";

void fail(const char *what, const char *which)
{
    printf("bench: %s: %s\n", what, which);
    exit(1);
}

uint32_t accepted(uint64_t answer, const char *what)
{
    if (halyardfig_refused(answer) != 0)
        fail("refused", what);
    return halyardfig_value(answer);
}

void read_query(const struct document *document, const char *text, struct query *query)
{
    query->count = accepted(halyardfig_read((const uint8_t *)text, strlen(text), HALYARDFIG_XPATH_1, document->list,
                                            document->list_length, query->items, ITEM_ROOM),
                            text);
    snprintf(query->text, sizeof query->text, "%s", text);
}

/* The text of a composition of so many items. */
static void print_composed(const struct document *document, struct query *query, uint32_t count)
{
    query->count = count;
    uint32_t length = accepted(halyardfig_print_long(query->items, query->count, document->list, document->list_length,
                                                     (uint8_t *)query->text, TEXT_ROOM),
                               "the text of a composition");
    query->text[length] = 0;
}

void compose(const struct document *document, const struct query *outer, const struct query *inner, struct query *query)
{
    print_composed(
        document, query,
        accepted(halyardfig_compose(outer->items, outer->count, inner->items, inner->count, query->items, ITEM_ROOM),
                 "a composition"));
}

void compose_leanly(const struct document *document, const struct query *outer, const struct query *inner,
                    struct query *query)
{
    print_composed(document, query,
                   accepted(halyardfig_compose_lean(outer->items, outer->count, inner->items, inner->count,
                                                    query->items, ITEM_ROOM),
                            "a lean composition"));
}

void each_composition(const struct document *document, composing *way,
                      void (*with)(const struct document *document, const struct composition *composition))
{
    static struct query q1, q2, q3, on_one, on_two;
    static struct composition composition;
    const struct {
        const char *name;
        const struct query *outer, *inner, *turns[3];
        size_t count;
    } rows[] = {
        {"Q3 on Q1", &q3, &q1, {&q1, &q3}, 2},
        {"Q2 on Q1", &q2, &q1, {&q1, &q2}, 2},
        {"Q3 on Q2", &q3, &q2, {&q2, &q3}, 2},
        {"Q3 on (Q2 on Q1)", &q3, &on_one, {&q1, &q2, &q3}, 3},
        {"(Q3 on Q2) on Q1", &on_two, &q1, {&q1, &q2, &q3}, 3},
    };
    read_query(document, q1_text, &q1);
    read_query(document, q2_text, &q2);
    read_query(document, q3_text, &q3);
    way(document, &q2, &q1, &on_one);
    way(document, &q3, &q2, &on_two);
    for (size_t r = 0; r < sizeof rows / sizeof rows[0]; r++) {
        composition.name = rows[r].name;
        composition.count = rows[r].count;
        memcpy(composition.turns, rows[r].turns, sizeof composition.turns);
        way(document, rows[r].outer, rows[r].inner, &composition.composed);
        with(document, &composition);
    }
}
