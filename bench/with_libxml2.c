/* libxml2 as an engine: a node keeps its number in the field that is left to the user. */
#include "engines.h"

#include <libxml/parser.h>
#include <libxml/tree.h>
#include <libxml/xmlsave.h>
#include <libxml/xpath.h>
#include <stdlib.h>
#include <string.h>

static xmlNodePtr new_node(xmlDocPtr tree, const struct document *document, size_t i)
{
    if (document->kind[i] == HALYARDFIG_KIND_TEXT)
        return xmlNewDocText(tree, BAD_CAST "t");
    return xmlNewDocNode(tree, NULL, BAD_CAST document->name[document->kind[i] - HALYARDFIG_KIND_ELEMENT], NULL);
}

static void *load(const struct document *document)
{
    xmlNodePtr nodes[NODE_ROOM];
    xmlDocPtr tree = xmlNewDoc(BAD_CAST "1.0");
    nodes[0] = (xmlNodePtr)tree;
    for (size_t i = 1; i < document->nodes; i++) {
        nodes[i] = xmlAddChild(nodes[document->parent[i]], new_node(tree, document, i));
        nodes[i]->_private = (void *)i;
    }
    xmlXPathOrderDocElems(tree);
    xmlXPathContextPtr context = xmlXPathNewContext(tree);
    context->node = (xmlNodePtr)tree;
    return context;
}

static void unload(void *loaded)
{
    xmlXPathContextPtr context = loaded;
    xmlFreeDoc(context->doc);
    xmlXPathFreeContext(context);
}

static void *compile(const char *text)
{
    return xmlXPathCompile(BAD_CAST text);
}

static void discard(void *query)
{
    xmlXPathFreeCompExpr(query);
}

static size_t select_nodes(void *loaded, void *query, uint16_t *selected)
{
    xmlXPathContextPtr context = loaded;
    xmlXPathObjectPtr found = xmlXPathCompiledEval(query, context);
    if (found == NULL || found->type != XPATH_NODESET)
        abort();
    int count = found->nodesetval == NULL ? 0 : found->nodesetval->nodeNr;
    for (int i = 0; i < count; i++)
        selected[i] = (uint16_t)(uintptr_t)found->nodesetval->nodeTab[i]->_private;
    xmlXPathFreeObject(found);
    return (size_t)count;
}

/* The option is the one for deep trees. */
static void *parse(const uint8_t *text, size_t length)
{
    return xmlReadMemory((const char *)text, (int)length, NULL, NULL, XML_PARSE_HUGE | XML_PARSE_NONET);
}

static void release(void *parsed)
{
    xmlFreeDoc(parsed);
}

/* The node after this one in document order, or after all inside it. */
static xmlNodePtr next_node(xmlNodePtr node, int inside)
{
    if (inside && node->children != NULL)
        return node->children;
    while (node != NULL && node->next == NULL)
        node = node->parent;
    return node == NULL ? NULL : node->next;
}

static size_t count_nodes(void *parsed)
{
    size_t count = 1;
    for (xmlNodePtr node = ((xmlDocPtr)parsed)->children; node != NULL; node = next_node(node, 1))
        count++;
    return count;
}

/* Nodes are numbered by the way through the whole tree, so what is inside a node that goes is counted and then freed
   with it. */
static void remove_unmarked(xmlDocPtr tree, const uint8_t *marks)
{
    size_t number = 1;
    for (xmlNodePtr node = tree->children; node != NULL;) {
        if (marks[number] == 1) {
            node = next_node(node, 1);
            number++;
            continue;
        }
        xmlNodePtr removed = node, behind = next_node(node, 0);
        for (; node != behind; node = next_node(node, 1))
            number++;
        xmlUnlinkNode(removed);
        xmlFreeNode(removed);
    }
}

static size_t write_marked(void *parsed, const uint8_t *marks, uint8_t *out, size_t room)
{
    xmlBufferPtr buffer = xmlBufferCreate();
    xmlSaveCtxtPtr save = xmlSaveToBuffer(buffer, "UTF-8", XML_SAVE_NO_DECL | XML_SAVE_NO_EMPTY | XML_SAVE_AS_XML);
    remove_unmarked(parsed, marks);
    xmlSaveTree(save, xmlDocGetRootElement(parsed));
    xmlSaveClose(save);
    size_t length = (size_t)xmlBufferLength(buffer);
    if (length > room)
        abort();
    memcpy(out, xmlBufferContent(buffer), length);
    xmlBufferFree(buffer);
    return length;
}

const struct engine libxml2_engine = {"libxml2",   LIBXML_DOTTED_VERSION, load,  unload,  compile,
                                      discard,     select_nodes,          parse, release, count_nodes,
                                      write_marked};
