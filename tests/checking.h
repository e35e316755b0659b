/* What the programs share that hold cases of the library to libxml2. */
#ifndef CHECKING_H
#define CHECKING_H

#include "halyardfig.h"
#include "support.h"

#include <libxml/tree.h>

/* A column of a case, by its nodes. */
typedef unsigned case_column[HALYARDFIG_NODES];

/* Takes the lines of a group's cases from standard input up to the line that counts them: a case and its names by
   itself, each other line by this function. Then ends the group and answers its exit status. */
int check_cases(const char *group, void (*take_line)(char letter, char *rest));

/* What is tried, and the lines of the case up to now. */
const char *case_now(void);
const char *case_lines(void);

/* The name of a number, of the names that were taken last. */
const char *name_of(unsigned number);

/* Counts a failure: no case has this line. */
void no_such_line(void);

/* Takes the numbers of a line, and answers how many they are. */
size_t take_column(char *words, case_column column);

/* Takes the bytes of a line in hexadecimal, and answers how many they are. */
size_t take_bytes(const char *digits, uint8_t *bytes);

/* An XML text of a case, and its columns. */
struct case_xml {
    uint8_t text[HALYARDFIG_TEXT_BYTES + 1];
    size_t length;
    case_column parent, kind, begin, end;
    size_t nodes;
};

/* Takes a line of an XML text, which starts with T, P, K, B or E; answers whether it is one. */
bool take_xml_line(struct case_xml *xml, char letter, char *rest);

/* Counts one test of the case, and says what is wrong if it fails. */
void judge_case(bool passed, const char *wrong);

/* The tree that libxml2 makes of XML text; a null pointer if that is not well-formed. */
xmlDocPtr parse_xml(const uint8_t *text, size_t length);

/* The node after this one in document order. */
xmlNodePtr next_node(xmlNodePtr node);

/* Character data as a parser hands it on: references replaced, CR and CR LF turned into LF, and a zero byte behind. */
void write_plain(const uint8_t *data, size_t length, char *plain);

#endif
