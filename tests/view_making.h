/* Views and documents for the programs that show what a view keeps of documents. */
#ifndef VIEW_MAKING_H
#define VIEW_MAKING_H

#include "xml_making.h"

#include <stdio.h>

/* Writes a view of one line, with names of the list. Most go anywhere at first, so that they keep a part of many
   documents. */
void write_view(struct dice *dice, const struct list *list, FILE *input);

/* The list without its last name. */
struct list without_last(const struct list *list);

/* Makes a document with the known names of the list, all but the last. Some have the last name too, some are cut in the
   top element or behind it, and some have what is left out. */
void make_document(struct dice *dice, struct xml *xml, const struct list *list, const struct list *known);

/* Creates a file in a folder for writing; without it the program ends. */
FILE *create_in(const char *folder, const char *name);

#endif
