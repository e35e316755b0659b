/* The library and the other engines, side by side at the same work. */
#ifndef SIDES_H
#define SIDES_H

#include "queries.h"
#include "texts.h"

enum { OURS, LIBXML2, PUGIXML, SIDES };

/* Times a query on a document: selecting, then marking what is selected, above it and below it.
   All sides have to make the same marks. Answers how many nodes are kept; times are in microseconds. */
size_t time_run(const struct document *document, const struct query *query, double micros[SIDES]);

/* Times a query on a document for the library alone. */
double time_own_run(const struct document *document, const struct query *query);

/* Times a composition for the library, and the queries that it is composed of in turn, each inside the marks of the one
   before. Both have to make the same marks. Answers how many nodes are kept. */
size_t time_in_turn(const struct document *document, const struct composition *composition, double *once,
                    double *in_turn);

/* Times a query on a document for the two engines of the library, by sets and node by node; both have to make the same
   marks. */
void time_engines(const struct document *document, const struct query *query, double *run, double *follow);

/* Times the height and the path count of a query. */
double time_own_measures(const struct document *document, const struct query *query);

/* Times the check of a document as a cut of itself, for the library. */
double time_cut(const struct document *document);

/* Views, one a line, over the one name `a`. */
struct views {
    uint8_t bytes[HALYARDFIG_TEXT_BYTES];
    size_t length;
};

/* Composing `/` for a role that names the first of the views, which are all read. */
double time_role(struct views *views);

/* Times the reading of a query's text. */
void time_reading(const struct document *document, const struct query *query, double micros[SIDES]);

/* Times the reading of XML text. The library has to write the text's document, and the others have to find as many
   nodes. */
void time_loading(const struct xml_text *text, double micros[SIDES]);

/* Times the writing of what a query keeps of an XML text back to XML: the library from the text with its columns and
   the marks, the others by reading the text, removing what is not marked and writing what is left. All have to write
   the same bytes. Answers how many they are. */
size_t time_writing(const struct xml_text *text, const struct query *query, double micros[SIDES]);

/* The versions of the other engines, in words. */
const char *versions(void);

#endif
