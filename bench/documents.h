/* The documents of the benchmark, as node tables with a name list. */
#ifndef DOCUMENTS_H
#define DOCUMENTS_H

#include <halyardfig.h>
#include <stddef.h>
#include <stdint.h>

/* Room for the largest of each that the library takes. */
enum { NODE_ROOM = HALYARDFIG_NODES, NAME_ROOM = HALYARDFIG_NAMES, LIST_ROOM = HALYARDFIG_NAMES_BYTES };

struct document {
    size_t nodes;
    size_t limit;
    uint16_t open;
    uint16_t parent[NODE_ROOM];
    uint16_t kind[NODE_ROOM];
    size_t names;
    char name[NAME_ROOM][16];
    size_t list_length;
    uint8_t list[LIST_ROOM];
};

#ifdef __cplusplus
extern "C" {
#endif

/* Makes a document like those of XMark, of at most so many nodes and of about as many. */
void make_xmark(struct document *document, size_t nodes);

/* Makes a document of so many nodes in which every element but the last has one child; `a` and `b` take turns. */
void make_chain(struct document *document, size_t nodes);

/* Makes a document of so many nodes in which every element is a child of the root; `a` and `b` take turns. */
void make_row(struct document *document, size_t nodes);

/* Deep documents: a chain of elements from the root down, alone, with one leaf in each of its nodes, which comes before
   the rest of the chain or behind it, or with 2,000 leaves of 4,096 nodes in its last element. */
enum shape { CHAIN, COMB_BEFORE, COMB_BEHIND, LEAVES_AT_END, SHAPES };

/* Makes a deep document of so many nodes, a multiple of 512; the chain's elements are `a` but for the last, which is
   `end`, and the leaves are `b`. */
void make_deep(struct document *document, size_t nodes, enum shape shape);

/* Makes a document of the root alone, whose list has these names; a null pointer ends them. */
void make_names(struct document *document, const char *const *names);

#ifdef __cplusplus
}
#endif

#endif
