/* Reads cases from standard input and holds them to libxml2 as a parser of XML. */
#include "checking.h"

#include <stdio.h>
#include <stdlib.h>
#include <string.h>

static struct case_xml now;

static bool is_well_formed(size_t length)
{
    xmlDocPtr document = parse_xml(now.text, length);
    xmlFreeDoc(document);
    return document != NULL;
}

static bool stands_at(size_t place, const char *word)
{
    return place + strlen(word) <= now.length && memcmp(now.text + place, word, strlen(word)) == 0;
}

/* The three kinds of text that libxml2 takes and XML 1.0 does not: a zero byte behind the element, the version `1.`,
   and no white space before `standalone`. */
static bool is_lenient(size_t place)
{
    if (place < now.length && now.text[place] == 0)
        return is_well_formed(place);
    if (place >= 3 && stands_at(place - 2, "1.") && now.text[place] == now.text[place - 3])
        return true;
    return stands_at(place, "standalone") && (now.text[place - 1] == '"' || now.text[place - 1] == '\'');
}

static void check_refused(const char *rest)
{
    unsigned number = 0, place = 0;
    sscanf(rest, "%u %u", &number, &place);
    if (number == HALYARDFIG_REFUSED_XML)
        judge_case(!is_well_formed(now.length) || is_lenient(place), "libxml2 takes what is refused with 11");
    else
        judge_case(is_well_formed(now.length), "libxml2 does not take what is refused only for its names or nodes");
}

static bool is_text(size_t node, const xmlNode *in_tree)
{
    static char plain[HALYARDFIG_TEXT_BYTES + 1];
    write_plain(now.text + now.begin[node], now.end[node] - now.begin[node], plain);
    return in_tree->type == XML_TEXT_NODE && strcmp(plain, (const char *)in_tree->content) == 0;
}

static bool is_element(size_t node, const xmlNode *in_tree)
{
    return in_tree->type == XML_ELEMENT_NODE && in_tree->properties == NULL && now.text[now.begin[node]] == '<' &&
           now.text[now.end[node] - 1] == '>' &&
           strcmp((const char *)in_tree->name, name_of(now.kind[node] - HALYARDFIG_KIND_ELEMENT)) == 0;
}

static bool same_tree(xmlDocPtr document)
{
    xmlNodePtr in_tree = (xmlNodePtr)document;
    in_tree->_private = NULL;
    for (size_t i = 1; i < now.nodes; i++) {
        in_tree = next_node(in_tree);
        if (in_tree == NULL || (size_t)in_tree->parent->_private != now.parent[i])
            return false;
        in_tree->_private = (void *)i;
        if (!(now.kind[i] == HALYARDFIG_KIND_TEXT ? is_text(i, in_tree) : is_element(i, in_tree)))
            return false;
    }
    return next_node(in_tree) == NULL && now.begin[0] == 0 && now.end[0] == now.length;
}

static void check_read(void)
{
    xmlDocPtr document = parse_xml(now.text, now.length);
    judge_case(document != NULL && same_tree(document), "libxml2 reads another tree, or none");
    xmlFreeDoc(document);
}

static void take_line(char letter, char *rest)
{
    if (letter == 'R')
        check_refused(rest);
    else if (!take_xml_line(&now, letter, rest))
        no_such_line();
    else if (letter == 'E')
        check_read();
}

int main(void)
{
    return check_cases("xml_engine", take_line);
}
