/* The documents of the benchmark: each part is written in document order, and what is past the limit is left out. */
#include "documents.h"

#include <stdio.h>
#include <string.h>

static void start(struct document *document, size_t limit)
{
    memset(document, 0, sizeof *document);
    document->limit = limit;
    document->nodes = 1;
}

/* The kind of an element; a new name goes to the end of the list. */
static uint16_t kind_of(struct document *document, const char *name)
{
    size_t v = 0;
    while (v < document->names && strcmp(document->name[v], name) != 0)
        v++;
    if (v == document->names) {
        document->names++;
        snprintf(document->name[v], sizeof document->name[v], "%s", name);
        document->list_length += (size_t)sprintf((char *)document->list + document->list_length, "%s\n", name);
    }
    return (uint16_t)(HALYARDFIG_KIND_ELEMENT + v);
}

/* Adds a child to the open node, and answers it; past the limit it answers the open node. */
static uint16_t add(struct document *document, uint16_t kind)
{
    if (document->nodes == document->limit)
        return document->open;
    document->parent[document->nodes] = document->open;
    document->kind[document->nodes] = kind;
    return (uint16_t)document->nodes++;
}

/* Opens an element, and answers the node that was open before. */
static uint16_t open_element(struct document *document, const char *name)
{
    uint16_t before = document->open;
    document->open = add(document, kind_of(document, name));
    return before;
}

static void close_element(struct document *document, uint16_t before)
{
    document->open = before;
}

static void add_empty(struct document *document, const char *name)
{
    close_element(document, open_element(document, name));
}

/* Adds an element that holds a text. */
static void add_leaf(struct document *document, const char *name)
{
    size_t nodes = document->nodes;
    uint16_t before = open_element(document, name);
    if (document->nodes > nodes)
        add(document, HALYARDFIG_KIND_TEXT);
    close_element(document, before);
}

/* Adds such an element for each name of a list that ends with a null pointer. */
static void add_leaves(struct document *document, const char *const *names)
{
    for (; *names != NULL; names++)
        add_leaf(document, *names);
}

static void add_description(struct document *document, size_t number)
{
    uint16_t before = open_element(document, "desc");
    if (number % 3 != 0) {
        add_leaf(document, "text");
    } else {
        uint16_t desc = open_element(document, "parlist");
        for (size_t i = 0; i < 2; i++) {
            uint16_t parlist = open_element(document, "listitem");
            add_leaf(document, "text");
            close_element(document, parlist);
        }
        close_element(document, desc);
    }
    close_element(document, before);
}

static void add_mailbox(struct document *document, size_t mails)
{
    static const char *const parts[] = {"from", "to", "date", "text", NULL};
    uint16_t before = open_element(document, "mailbox");
    for (; mails > 0; mails--) {
        uint16_t mailbox = open_element(document, "mail");
        add_leaves(document, parts);
        close_element(document, mailbox);
    }
    close_element(document, before);
}

/* Every third item has no quantity, every fifth no description. */
static void add_item(struct document *document, size_t number)
{
    uint16_t before = open_element(document, "item");
    add_leaf(document, "location");
    if (number % 3 != 0)
        add_leaf(document, "quantity");
    add_leaf(document, "name");
    add_leaf(document, "payment");
    if (number % 5 != 0)
        add_description(document, number);
    add_leaf(document, "shipping");
    add_empty(document, "incategory");
    add_empty(document, "incategory");
    add_mailbox(document, number % 3);
    close_element(document, before);
}

/* The regions have items in about the proportions of XMark. */
static void add_regions(struct document *document, size_t items)
{
    static const struct {
        const char *name;
        size_t share;
    } regions[] = {{"africa", 2}, {"asia", 8}, {"australia", 9}, {"europe", 25}, {"namerica", 50}, {"samerica", 6}};
    uint16_t site = open_element(document, "regions");
    for (size_t r = 0; r < sizeof regions / sizeof regions[0]; r++) {
        uint16_t before = open_element(document, regions[r].name);
        for (size_t i = 0; i < 1 + items * regions[r].share / 100; i++)
            add_item(document, i);
        close_element(document, before);
    }
    close_element(document, site);
}

static void add_categories(struct document *document, size_t categories)
{
    uint16_t site = open_element(document, "categories");
    for (size_t i = 0; i < categories; i++) {
        uint16_t before = open_element(document, "category");
        add_leaf(document, "name");
        add_description(document, i);
        close_element(document, before);
    }
    close_element(document, site);
    open_element(document, "catgraph");
    for (size_t i = 0; i < categories; i++)
        add_empty(document, "edge");
    close_element(document, site);
}

static void add_person(struct document *document, size_t number)
{
    static const char *const contact[] = {"name", "emailaddress", "phone", NULL};
    static const char *const address[] = {"street", "city", "country", "zipcode", NULL};
    static const char *const profile[] = {"education", "business", "age", NULL};
    uint16_t before = open_element(document, "person");
    add_leaves(document, contact);
    if (number % 2 == 0) {
        uint16_t person = open_element(document, "address");
        add_leaves(document, address);
        close_element(document, person);
    }
    uint16_t person = open_element(document, "profile");
    add_empty(document, "interest");
    add_leaves(document, profile);
    close_element(document, person);
    open_element(document, "watches");
    for (size_t i = 0; i < number % 4; i++)
        add_empty(document, "watch");
    close_element(document, before);
}

static void add_annotation(struct document *document, size_t number)
{
    uint16_t before = open_element(document, "annotation");
    add_empty(document, "author");
    add_description(document, number);
    add_leaf(document, "happiness");
    close_element(document, before);
}

static void add_bidder(struct document *document)
{
    uint16_t before = open_element(document, "bidder");
    add_leaf(document, "date");
    add_leaf(document, "time");
    add_empty(document, "personref");
    add_leaf(document, "increase");
    close_element(document, before);
}

static void add_open_auction(struct document *document, size_t number)
{
    uint16_t before = open_element(document, "open_auction");
    add_leaf(document, "initial");
    for (size_t i = 0; i < number % 5; i++)
        add_bidder(document);
    add_leaf(document, "current");
    add_empty(document, "itemref");
    add_empty(document, "seller");
    add_annotation(document, number);
    add_leaf(document, "quantity");
    add_leaf(document, "type");
    uint16_t auction = open_element(document, "interval");
    add_leaf(document, "start");
    add_leaf(document, "end");
    close_element(document, auction);
    close_element(document, before);
}

static void add_closed_auction(struct document *document, size_t number)
{
    static const char *const parts[] = {"price", "date", "quantity", "type", NULL};
    uint16_t before = open_element(document, "closed_auction");
    add_empty(document, "seller");
    add_empty(document, "buyer");
    add_empty(document, "itemref");
    add_leaves(document, parts);
    add_annotation(document, number);
    close_element(document, before);
}

/* Adds under the open node an element that holds so many parts, each written by the same function. */
static void add_all(struct document *document, const char *name, size_t count,
                    void (*add_part)(struct document *, size_t))
{
    uint16_t site = open_element(document, name);
    for (size_t i = 0; i < count; i++)
        add_part(document, i);
    close_element(document, site);
}

void make_xmark(struct document *document, size_t nodes)
{
    start(document, nodes);
    open_element(document, "site");
    add_regions(document, nodes * 45 / 4000);
    add_categories(document, nodes * 10 / 4000);
    add_all(document, "people", nodes * 52 / 4000, add_person);
    add_all(document, "open_auctions", nodes * 24 / 4000, add_open_auction);
    add_all(document, "closed_auctions", nodes * 20 / 4000, add_closed_auction);
}

void make_chain(struct document *document, size_t nodes)
{
    start(document, nodes);
    for (size_t i = 1; i < nodes; i++)
        open_element(document, i % 2 == 1 ? "a" : "b");
}

void make_row(struct document *document, size_t nodes)
{
    start(document, nodes);
    for (size_t i = 1; i < nodes; i++)
        add_empty(document, i % 2 == 1 ? "a" : "b");
}

/* Opens so many elements, each in the one before, the last one `end`; where leaves are wanted, one comes first in the
   root and in each of them. */
static void open_chain(struct document *document, size_t elements, int leaves)
{
    if (leaves)
        add_empty(document, "b");
    for (size_t i = 1; i <= elements; i++) {
        open_element(document, i < elements ? "a" : "end");
        if (leaves)
            add_empty(document, "b");
    }
}

/* Adds a leaf at the end of so many open elements, closing each, and then one at the end of the root. */
static void close_chain(struct document *document, size_t elements)
{
    for (size_t i = 0; i < elements; i++) {
        add_empty(document, "b");
        close_element(document, document->parent[document->open]);
    }
    add_empty(document, "b");
}

void make_deep(struct document *document, size_t nodes, enum shape shape)
{
    size_t leaves = nodes / 512 * 250;
    start(document, nodes);
    switch (shape) {
    case COMB_BEFORE:
        open_chain(document, nodes / 2 - 1, 1);
        break;
    case COMB_BEHIND:
        open_chain(document, nodes / 2 - 1, 0);
        close_chain(document, nodes / 2 - 1);
        break;
    case LEAVES_AT_END:
        open_chain(document, nodes - 1 - leaves, 0);
        while (document->nodes < nodes)
            add_empty(document, "b");
        break;
    default:
        open_chain(document, nodes - 1, 0);
    }
}

void make_names(struct document *document, const char *const *names)
{
    start(document, 1);
    for (; *names != NULL; names++)
        kind_of(document, *names);
}
