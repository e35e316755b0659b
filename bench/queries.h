/* Queries: read, composed and printed by the library. */
#ifndef QUERIES_H
#define QUERIES_H

#include "documents.h"

enum { ITEM_ROOM = HALYARDFIG_QUERY_ITEMS, TEXT_ROOM = HALYARDFIG_TEXT_BYTES, AXES = 11 };

/* The words of the axes, by their numbers. */
extern const char *const axis_names[AXES];

struct query {
    size_t count;
    uint32_t items[ITEM_ROOM];
    char text[TEXT_ROOM + 1];
};

/* Ends the program, saying what went wrong with which text. */
_Noreturn void fail(const char *what, const char *which);

/* The value of an answer that has to be accepted. */
uint32_t accepted(uint64_t answer, const char *what);

/* Reads a query, which keeps its text as it is written. */
void read_query(const struct document *document, const char *text, struct query *query);

/* A way to compose two queries; the text of the composition is what is printed for it. */
typedef void composing(const struct document *document, const struct query *outer, const struct query *inner,
                       struct query *query);

/* The composition, and the same with fewer guards. */
composing compose, compose_leanly;

/* The queries of the paper on subtree queries (docs/SCOPE.md), as far as the library's part of XPath says them. */
extern const char q1_text[], q2_text[], q3_text[];

/* A composition of these, and what it is composed of, in the order in which these run in turn. */
struct composition {
    const char *name;
    struct query composed;
    const struct query *turns[3];
    size_t count;
};

/* Makes each composition of the paper's queries in one way, and hands it on. */
void each_composition(const struct document *document, composing *way,
                      void (*with)(const struct document *document, const struct composition *composition));

#endif
