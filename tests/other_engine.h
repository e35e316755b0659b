/* Another engine, by which a check is linked: the document of a case, and what a query text selects in it. */
#ifndef OTHER_ENGINE_H
#define OTHER_ENGINE_H

#include "halyardfig.h"

#include <stdbool.h>

/* The nodes that are marked are the document's; of each its parent, and its name, a null pointer for a text. */
struct case_document {
    size_t nodes;
    unsigned parent[HALYARDFIG_NODES];
    const char *name[HALYARDFIG_NODES];
    uint8_t marks[HALYARDFIG_NODES];
};

#ifdef __cplusplus
extern "C" {
#endif

extern const char other_engine[];

/* Sets a byte for each node that the text selects from the root; answers false where the engine does not take it. */
bool other_selects(const struct case_document *document, const char *text, uint8_t *selected);

#ifdef __cplusplus
}
#endif

#endif
