/* What libxml2 makes of a view and a document: its XPath under the subtree rule says what the view keeps. */
#ifndef VIEW_CHECKING_H
#define VIEW_CHECKING_H

#include "checking.h"

/* A view with the names that its documents may have. */
struct view {
    char *xpath;
    char *names[HALYARDFIG_NAMES];
    size_t count;
};

/* Takes the next line, which an LF ends. */
char *take_next(char **rest);

/* Takes the view of an input and its names, up to the blank line behind them. */
void take_view(struct view *view, char **rest);

/* The number of an element's name; the count of names if it is none of them. */
size_t number_of(const struct view *view, const xmlNode *element);

/* The number that a document is refused with for what it holds, or 0; a null pointer is one that can't be parsed. */
unsigned refusal_of(const struct view *view, xmlDocPtr document);

/* Marks what the view keeps of a document; answers whether libxml2 takes the view. */
bool keep_nodes(const struct view *view, xmlDocPtr document);
bool is_kept(const xmlNode *node);

/* The bytes of a file, with a zero byte behind; none where there is no such file. */
char *bytes_of(const char *path);

#endif
