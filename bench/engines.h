/* The other engines, behind one set of calls. */
#ifndef ENGINES_H
#define ENGINES_H

#include "documents.h"

struct engine {
    const char *name;
    const char *version;
    /* Makes the engine's own form of a document. */
    void *(*load)(const struct document *document);
    void (*unload)(void *loaded);
    /* Reads a query text; a null pointer if the engine does not take it. */
    void *(*compile)(const char *text);
    void (*discard)(void *query);
    /* Writes the numbers of the nodes that the query selects from the root, and answers how many they are. */
    size_t (*select)(void *loaded, void *query, uint16_t *selected);
    /* Reads XML text into a tree; a null pointer if the engine does not take it. */
    void *(*parse)(const uint8_t *text, size_t length);
    void (*release)(void *parsed);
    /* How many nodes the tree has, the root included. */
    size_t (*count)(void *parsed);
    /* Removes the nodes of the tree that are not marked, in document order, and writes what is left without a
       declaration, each element with two tags; answers the bytes, of which there is room for so many. */
    size_t (*write)(void *parsed, const uint8_t *marks, uint8_t *out, size_t room);
};

#ifdef __cplusplus
extern "C" {
#endif

extern const struct engine libxml2_engine;
extern const struct engine pugixml_engine;

#ifdef __cplusplus
}
#endif

#endif
