/* Reads cases from standard input and holds each file that was written to the tree that libxml2 makes of it: its
   elements are the marked ones, and its texts the marked ones, those side by side as one. */
#include "checking.h"

#include <stdio.h>
#include <string.h>

enum { FILE_ROOM = 2 * HALYARDFIG_TEXT_BYTES };

static struct case_xml now;
static uint8_t marks[HALYARDFIG_NODES], written[FILE_ROOM];
static size_t written_length;

static bool is_text(size_t node)
{
    return now.kind[node] == HALYARDFIG_KIND_TEXT;
}

/* The next marked node from this one on; the number of nodes if there is none. */
static size_t marked_from(size_t node)
{
    while (node < now.nodes && marks[node] == 0)
        node++;
    return node;
}

/* Is the text in the tree that of the marked texts from this one on that stand side by side? Answers the next marked
   node behind them, or 0. */
static size_t take_texts(size_t node, const xmlNode *in_tree)
{
    static uint8_t data[HALYARDFIG_TEXT_BYTES];
    static char plain[HALYARDFIG_TEXT_BYTES + 1];
    size_t length = 0, parent = now.parent[node];
    for (; node < now.nodes && is_text(node) && now.parent[node] == parent; node = marked_from(node + 1)) {
        memcpy(data + length, now.text + now.begin[node], now.end[node] - now.begin[node]);
        length += now.end[node] - now.begin[node];
    }
    write_plain(data, length, plain);
    return in_tree->type == XML_TEXT_NODE && strcmp(plain, (const char *)in_tree->content) == 0 ? node : 0;
}

/* Is the element in the tree that of this node? Answers the next marked node, or 0. */
static size_t take_element(size_t node, const xmlNode *in_tree)
{
    bool same = in_tree->type == XML_ELEMENT_NODE && in_tree->properties == NULL &&
                strcmp((const char *)in_tree->name, name_of(now.kind[node] - HALYARDFIG_KIND_ELEMENT)) == 0;
    return same ? marked_from(node + 1) : 0;
}

/* Each node of the tree keeps the number of the marked one that it is. */
static bool same_tree(xmlDocPtr document)
{
    xmlNodePtr in_tree = (xmlNodePtr)document;
    in_tree->_private = NULL;
    for (size_t node = marked_from(1); node < now.nodes;) {
        in_tree = next_node(in_tree);
        if (in_tree == NULL || (size_t)in_tree->parent->_private != now.parent[node])
            return false;
        in_tree->_private = (void *)node;
        node = is_text(node) ? take_texts(node, in_tree) : take_element(node, in_tree);
        if (node == 0)
            return false;
    }
    return next_node(in_tree) == NULL;
}

/* Neither a declaration nor anything else stands outside the one element. */
static bool is_bare(void)
{
    char start[HALYARDFIG_NAME_BYTES + 4], end[HALYARDFIG_NAME_BYTES + 4];
    const char *name = name_of(now.kind[marked_from(1)] - HALYARDFIG_KIND_ELEMENT);
    size_t starts = (size_t)snprintf(start, sizeof start, "<%s>", name),
           ends = (size_t)snprintf(end, sizeof end, "</%s>", name);
    return written_length >= starts + ends && memcmp(written, start, starts) == 0 &&
           memcmp(written + written_length - ends, end, ends) == 0;
}

static void check_written(void)
{
    xmlDocPtr document = parse_xml(written, written_length);
    judge_case(document != NULL && same_tree(document), "libxml2 reads another tree than was kept, or none");
    judge_case(is_bare(), "something stands outside the one element");
    xmlFreeDoc(document);
}

static void take_marks(const char *digits)
{
    for (size_t i = 0; i < now.nodes; i++)
        marks[i] = digits[i] == '1';
}

static void take_line(char letter, char *rest)
{
    if (letter == 'M') {
        take_marks(rest);
    } else if (letter == 'W') {
        written_length = take_bytes(rest, written);
        check_written();
    } else if (!take_xml_line(&now, letter, rest)) {
        no_such_line();
    }
}

int main(void)
{
    return check_cases("file_engine", take_line);
}
