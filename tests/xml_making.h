/* Random XML texts that are wanted, with the document that each is; and ways to damage them. */
#ifndef XML_MAKING_H
#define XML_MAKING_H

#include "making.h"

/* The columns of a document that is read from XML text. */
enum column { PARENT_COLUMN, KIND_COLUMN, BEGIN_COLUMN, END_COLUMN, COLUMNS };

/* The shortest element with something inside is `<a></a>`, so no text has more of them open at once. */
enum { OPEN_MOST = TEXT_ROOM / 3 };

struct xml {
    struct text text;
    size_t nodes;
    uint16_t column[COLUMNS][NODE_ROOM];
};

/* How a text grows: its bytes and nodes at most, and in percent how often an element opens, is empty or closes where
   all else is character data, and how often white space stands where it may. A run has so many characters at most. */
struct growth {
    size_t bytes, nodes;
    unsigned opens, empties, closes, loose;
    size_t run;
};

/* A growth of any sort: small mostly, sometimes deep, wide or long. */
struct growth any_growth(struct dice *dice);

/* A growth up to the limits of a text and of a table. */
struct growth large_growth(struct dice *dice);

/* A wanted text with names of a list that has some. */
void make_xml(struct dice *dice, struct xml *xml, const struct list *list, struct growth growth);

/* An XML declaration of any form, at the end of the text. */
void put_declaration(struct dice *dice, struct text *text, unsigned loose);

/* Puts bytes in, takes some out, changes some or cuts the text. */
void damage_xml(struct dice *dice, struct text *text);

/* A text of pieces of XML in any order. */
void make_xml_soup(struct dice *dice, struct text *text, size_t pieces);

#endif
