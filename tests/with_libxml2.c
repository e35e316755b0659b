/* libxml2 as the other engine: a node keeps its number in the field that is left to the user. */
#include "other_engine.h"

#include <libxml/tree.h>
#include <libxml/xpath.h>
#include <stdio.h>
#include <stdlib.h>
#include <string.h>

const char other_engine[] = "libxml2";

/* Links a node as its parent's last child; libxml2's own call would join neighbouring texts. */
static void append(xmlNodePtr parent, xmlNodePtr child)
{
    child->parent = parent;
    child->prev = parent->last;
    if (parent->last == NULL)
        parent->children = child;
    else
        parent->last->next = child;
    parent->last = child;
}

/* libxml2's preceding axis ends at the first child of the document, which it takes for an ancestor; so a document
   type, which is no node of XPath, stands before several top nodes. */
static xmlDocPtr build(const struct case_document *document)
{
    static xmlNodePtr tree[HALYARDFIG_NODES];
    xmlDocPtr made = xmlNewDoc(BAD_CAST "1.0");
    xmlCreateIntSubset(made, BAD_CAST "d", NULL, NULL);
    tree[0] = (xmlNodePtr)made;
    for (size_t i = 1; i < document->nodes; i++) {
        if (document->marks[i] == 0)
            continue;
        tree[i] = document->name[i] == NULL ? xmlNewDocText(made, BAD_CAST "t")
                                            : xmlNewDocNode(made, NULL, BAD_CAST document->name[i], NULL);
        append(tree[document->parent[i]], tree[i]);
    }
    for (size_t i = 0; i < document->nodes; i++)
        if (document->marks[i] != 0)
            tree[i]->_private = (void *)(i + 1);
    return made;
}

static bool select_nodes(xmlDocPtr document, const char *text, uint8_t *selected)
{
    xmlXPathContextPtr context = xmlXPathNewContext(document);
    context->node = (xmlNodePtr)document;
    xmlXPathObjectPtr found = xmlXPathEvalExpression(BAD_CAST text, context);
    bool good = found != NULL && found->type == XPATH_NODESET;
    for (int i = 0; good && found->nodesetval != NULL && i < found->nodesetval->nodeNr; i++)
        selected[(size_t)found->nodesetval->nodeTab[i]->_private - 1] = 1;
    xmlXPathFreeObject(found);
    xmlXPathFreeContext(context);
    return good;
}

/* In brackets libxml2 takes its general way, which a document of several top nodes needs. */
bool other_selects(const struct case_document *document, const char *text, uint8_t *selected)
{
    size_t size = strlen(text) + 3;
    char *bracketed = malloc(size);
    snprintf(bracketed, size, "(%s)", text);
    xmlDocPtr made = build(document);
    bool good = select_nodes(made, bracketed, selected);
    xmlFreeDoc(made);
    free(bracketed);
    return good;
}
