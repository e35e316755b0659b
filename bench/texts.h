/* The documents of the benchmark as XML text. */
#ifndef TEXTS_H
#define TEXTS_H

#include "documents.h"

#ifdef __cplusplus
extern "C" {
#endif

/* A text, and the document that it is. */
struct xml_text {
    const struct document *document;
    size_t length;
    uint8_t bytes[HALYARDFIG_TEXT_BYTES];
};

/* Writes a document as XML text, where that has at most so many bytes; answers 1 if it has. */
int write_xml(const struct document *document, size_t limit, struct xml_text *text);

#ifdef __cplusplus
}
#endif

#endif
