/* What libxml2 makes of a view and a document: its XPath under the subtree rule says what the view keeps. */
#define _GNU_SOURCE
#include "view_checking.h"

#include <libxml/xpath.h>
#include <stdio.h>
#include <stdlib.h>
#include <string.h>

/* What a node's field for the user says: selected, or below what is; above what is. */
enum { BELOW = 1, ABOVE = 2 };

char *take_next(char **rest)
{
    return strsep(rest, "\n");
}

/* In brackets libxml2 takes its general way. */
void take_view(struct view *view, char **rest)
{
    free(view->xpath);
    view->count = 0;
    if (asprintf(&view->xpath, "(%s)", take_next(rest)) < 0)
        abort();
    for (char *name; *(name = take_next(rest)) != 0;)
        view->names[view->count++] = name;
}

static uintptr_t marks_of(const xmlNode *node)
{
    return (uintptr_t)node->_private;
}

static void mark(xmlNodePtr node, uintptr_t mark)
{
    node->_private = (void *)(marks_of(node) | mark);
}

size_t number_of(const struct view *view, const xmlNode *element)
{
    size_t v = 0;
    while (v < view->count && strcmp((const char *)element->name, view->names[v]) != 0)
        v++;
    return v;
}

static bool is_wanted(const xmlNode *node)
{
    return node->type == XML_TEXT_NODE ||
           (node->type == XML_ELEMENT_NODE && node->properties == NULL && node->nsDef == NULL);
}

unsigned refusal_of(const struct view *view, xmlDocPtr document)
{
    size_t nodes = 1;
    bool unknown = false;
    if (document == NULL)
        return HALYARDFIG_REFUSED_XML;
    for (xmlNodePtr node = document->children; node != NULL; node = next_node(node), nodes++) {
        if (!is_wanted(node))
            return HALYARDFIG_REFUSED_LEFT_OUT;
        unknown = unknown || (node->type == XML_ELEMENT_NODE && number_of(view, node) == view->count);
    }
    return unknown ? HALYARDFIG_REFUSED_NAME : nodes > HALYARDFIG_NODES ? HALYARDFIG_REFUSED_ROOM : 0;
}

bool keep_nodes(const struct view *view, xmlDocPtr document)
{
    xmlXPathContextPtr context = xmlXPathNewContext(document);
    context->node = (xmlNodePtr)document;
    xmlXPathObjectPtr found = xmlXPathEvalExpression(BAD_CAST view->xpath, context);
    bool good = found != NULL && found->type == XPATH_NODESET;
    for (int i = 0; good && found->nodesetval != NULL && i < found->nodesetval->nodeNr; i++) {
        mark(found->nodesetval->nodeTab[i], BELOW);
        for (xmlNodePtr node = found->nodesetval->nodeTab[i]; node != NULL; node = node->parent)
            mark(node, ABOVE);
    }
    for (xmlNodePtr node = document->children; good && node != NULL; node = next_node(node))
        mark(node, marks_of(node->parent) & BELOW);
    xmlXPathFreeObject(found);
    xmlXPathFreeContext(context);
    return good;
}

bool is_kept(const xmlNode *node)
{
    return marks_of(node) != 0;
}

char *bytes_of(const char *path)
{
    char *bytes = NULL;
    size_t room = 0;
    FILE *file = fopen(path, "rb");
    if (file == NULL || getdelim(&bytes, &room, 0, file) < 0)
        bytes = strdup("");
    if (file != NULL)
        fclose(file);
    return bytes;
}
