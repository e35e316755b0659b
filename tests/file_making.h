/* What is lent to write the kept part of an XML text back, of samples or made at random. */
#ifndef FILE_MAKING_H
#define FILE_MAKING_H

#include "xml_making.h"

/* An empty element whose tag becomes two is less than doubled, and all else that is written is no longer than the
   text. */
enum { FILE_ROOM = 2 * TEXT_ROOM };

/* The text and the columns begin and end are lent of the XML; the columns parent and kind, and the marks, of the
   table. */
struct file {
    struct list list;
    struct xml xml;
    struct table table;
};

/* Takes the document of the XML for the table, with every node marked. */
void mark_all(struct file *file);

/* Reads the text with the list by the library, and marks every node; answers whether it is read. */
bool read_text(struct file *file);

/* Starts with names and a text, read. */
bool start_file(struct file *file, const char *names, const char *text);

/* Each makes a list and a wanted text, and marks every node: a text of any sort; runs of `]` and `>` between elements;
   a text as long as it can be, often with as many nodes. */
void make_file(struct dice *dice, struct file *file);
void make_joins(struct dice *dice, struct file *file);
void make_large_file(struct dice *dice, struct file *file);

/* Marks what a view of the whole keeps, or nodes at random whose parents are marked; mostly an element is marked. */
void mark_by_view(struct dice *dice, struct file *file);
void mark_some(struct dice *dice, struct file *file);

/* Is an element marked? */
bool marks_element(const struct file *file);

/* A column as it is lent. */
uint16_t *lent_column(struct file *file, enum column column);

/* Calls the library with all of it. */
uint64_t write_file(const struct file *file, uint8_t *out, size_t room);

#endif
