/* Random XML texts that are wanted, with the document that each is; and ways to damage them. */
#include "xml_making.h"

#include <stdlib.h>
#include <string.h>

/* Room that is kept for what a text ends with, apart from its end tags. */
enum { SPARE_BYTES = 200 };

/* A text that grows, the numbers of its open elements, and the bytes that their end tags take. */
struct growing {
    struct dice *dice;
    struct xml *xml;
    const struct list *list;
    struct growth growth;
    size_t depth, owed;
    uint16_t open[OPEN_MOST];
};

static struct growing growing;

static const uint8_t *element_name(const struct growing *g, size_t node, size_t *length)
{
    return name_at(g->list, g->xml->column[KIND_COLUMN][node] - HALYARDFIG_KIND_ELEMENT, length);
}

static void put_name(struct growing *g, size_t node)
{
    size_t length;
    const uint8_t *name = element_name(g, node, &length);
    for (size_t i = 0; i < length; i++)
        put_byte(&g->xml->text, name[i]);
}

static bool is_full(const struct growing *g)
{
    return g->xml->text.length + g->owed + SPARE_BYTES > g->growth.bytes || g->xml->nodes >= g->growth.nodes;
}

/* White space that may stand here. */
static void put_loose(struct growing *g)
{
    put_white(g->dice, &g->xml->text, is_full(g) ? 0 : g->growth.loose, false);
}

/* Nodes. */

static size_t start_node(struct growing *g, size_t kind)
{
    struct xml *xml = g->xml;
    xml->column[PARENT_COLUMN][xml->nodes] = g->depth == 0 ? 0 : g->open[g->depth - 1];
    xml->column[KIND_COLUMN][xml->nodes] = (uint16_t)kind;
    xml->column[BEGIN_COLUMN][xml->nodes] = (uint16_t)xml->text.length;
    return xml->nodes++;
}

static void end_node(struct growing *g, size_t node)
{
    g->xml->column[END_COLUMN][node] = (uint16_t)g->xml->text.length;
}

/* A start tag up to its last byte or bytes. */
static size_t put_start(struct growing *g)
{
    size_t node = start_node(g, HALYARDFIG_KIND_ELEMENT + below(g->dice, g->list->count));
    put_byte(&g->xml->text, '<');
    put_name(g, node);
    put_loose(g);
    return node;
}

static size_t end_tag_bytes(const struct growing *g, size_t node)
{
    size_t length;
    element_name(g, node, &length);
    return strlen("</>") + length;
}

static void open_element(struct growing *g)
{
    size_t node = put_start(g);
    put_byte(&g->xml->text, '>');
    g->open[g->depth++] = (uint16_t)node;
    g->owed += end_tag_bytes(g, node);
}

static void put_empty(struct growing *g)
{
    size_t node = put_start(g);
    put_word(&g->xml->text, "/>");
    end_node(g, node);
}

static void close_element(struct growing *g)
{
    size_t node = g->open[--g->depth];
    g->owed -= end_tag_bytes(g, node);
    put_word(&g->xml->text, "</");
    put_name(g, node);
    put_loose(g);
    put_byte(&g->xml->text, '>');
    end_node(g, node);
}

/* Character data. */

/* UTF-8 of a code point over 127. */
static void put_wide(struct text *text, uint32_t point)
{
    unsigned later = point < 0x800 ? 1 : point < 0x10000 ? 2 : 3;
    put_byte(text, (uint8_t)(0xFF00u >> (later + 1) | point >> 6 * later));
    while (later-- > 0)
        put_byte(text, (uint8_t)(0x80 | (point >> 6 * later & 0x3F)));
}

/* A character of several bytes, often at the edge of those that there are. */
static uint32_t wide_point(struct dice *dice)
{
    static const uint32_t edges[] = {0x80,    0xA0,    0x7FF,   0x800,    0xFFF,    0x1000, 0xCFFF,  0xD000,
                                     0xD7FF,  0xE000,  0xFEFF,  0xFDD0,   0xFFC0,   0xFFFD, 0x10000, 0x1FFFE,
                                     0x3FFFF, 0x40000, 0xFFFFF, 0x100000, 0x10FFFF, 0x2028, 0x85,    0xB7};
    static const uint32_t ranges[][2] = {{0x80, 0x7FF}, {0x800, 0xD7FF}, {0xE000, 0xFFFD}, {0x10000, 0x10FFFF}};
    if (chance(dice, 50))
        return edges[below(dice, sizeof edges / sizeof edges[0])];
    const uint32_t *range = ranges[below(dice, sizeof ranges / sizeof ranges[0])];
    return (uint32_t)between(dice, range[0], range[1]);
}

static bool ends_squares(const struct text *text, size_t run)
{
    return text->length >= run + 2 && memcmp(text->bytes + text->length - 2, "]]", 2) == 0;
}

/* One character or reference of a run that begins at a place. */
static void put_character(struct dice *dice, struct text *text, size_t run)
{
    static const char *const words[] = {"&lt;", "&gt;", "&amp;", "&apos;", "&quot;", "]", "]]", "]]]", ";",
                                        "-->",  "\r\n", "\r",    "\n",     "\x7F",   "/", "'",  "\"",  "#"};
    size_t throw = below(dice, 10);
    if (throw < 3)
        put_byte(text, (uint8_t)between(dice, 'a', 'z'));
    else if (throw < 4)
        put_white(dice, text, 30, true);
    else if (throw < 6)
        put_wide(text, wide_point(dice));
    else if (throw < 7 && !ends_squares(text, run))
        put_byte(text, '>');
    else
        put_word(text, words[below(dice, sizeof words / sizeof words[0])]);
}

static void put_run(struct growing *g)
{
    struct text *text = &g->xml->text;
    size_t node = start_node(g, HALYARDFIG_KIND_TEXT), run = text->length;
    if (chance(g->dice, 30))
        put_white(g->dice, text, 60, true);
    else
        for (size_t left = between(g->dice, 1, g->growth.run); left > 0 && (text->length == run || !is_full(g)); left--)
            put_character(g->dice, text, run);
    end_node(g, node);
}

/* Texts. */

static void put_setting(struct dice *dice, struct text *text, const char *name, const char *value, unsigned loose)
{
    uint8_t quote = chance(dice, 50) ? '"' : '\'';
    put_white(dice, text, loose, true);
    put_word(text, name);
    put_white(dice, text, loose, false);
    put_byte(text, '=');
    put_white(dice, text, loose, false);
    put_byte(text, quote);
    put_word(text, value);
    put_byte(text, quote);
}

void put_declaration(struct dice *dice, struct text *text, unsigned loose)
{
    static const char *const versions[] = {"1.0", "1.1", "1.10", "1.99", "1.0123456789"};
    char encoding[] = "UTF-8";
    for (char *letter = encoding; *letter >= 'A'; letter++)
        if (chance(dice, 50))
            *letter = (char)(*letter - 'A' + 'a');
    put_word(text, "<?xml");
    put_setting(dice, text, "version", versions[below(dice, sizeof versions / sizeof versions[0])], loose);
    if (chance(dice, 60))
        put_setting(dice, text, "encoding", encoding, loose);
    if (chance(dice, 40))
        put_setting(dice, text, "standalone", chance(dice, 50) ? "yes" : "no", loose);
    put_white(dice, text, loose, false);
    put_word(text, "?>");
}

/* The one element and all inside it. */
static void grow(struct growing *g)
{
    const struct growth *growth = &g->growth;
    bool after_run = false;
    if (chance(g->dice, 10))
        put_empty(g);
    else
        open_element(g);
    while (g->depth > 0) {
        size_t throw = below(g->dice, 100);
        if (throw < growth->closes || is_full(g))
            close_element(g);
        else if (throw < growth->closes + growth->opens)
            open_element(g);
        else if (throw < growth->closes + growth->opens + growth->empties)
            put_empty(g);
        else if (!after_run)
            put_run(g);
        after_run = g->xml->column[KIND_COLUMN][g->xml->nodes - 1] == HALYARDFIG_KIND_TEXT &&
                    g->xml->column[END_COLUMN][g->xml->nodes - 1] == g->xml->text.length;
    }
}

struct growth any_growth(struct dice *dice)
{
    unsigned loose = chance(dice, 60) ? 0 : (unsigned)between(dice, 5, 60);
    size_t throw = below(dice, 40), bytes = throw == 0 ? TEXT_ROOM : between(dice, 1000, 4000);
    if (throw < 3)
        return (struct growth){bytes, NODE_ROOM, 90, 4, 0, loose / 4, 4};
    if (throw < 6)
        return (struct growth){bytes, NODE_ROOM, 3, 55, 3, loose / 4, 4};
    if (throw < 9)
        return (struct growth){bytes, NODE_ROOM, 10, 5, 5, loose, 2000};
    return (struct growth){TEXT_ROOM, between(dice, 2, 30), 25, 15, 25, loose, 8};
}

struct growth large_growth(struct dice *dice)
{
    unsigned opens = (unsigned)below(dice, 100);
    return (struct growth){.bytes = TEXT_ROOM,
                           .nodes = NODE_ROOM,
                           .opens = opens,
                           .empties = (unsigned)below(dice, 100 - opens),
                           .closes = (unsigned)below(dice, 3),
                           .loose = 2,
                           .run = between(dice, 1, 40)};
}

void make_xml(struct dice *dice, struct xml *xml, const struct list *list, struct growth growth)
{
    struct growing *g = &growing;
    struct text *text = &xml->text;
    g->dice = dice;
    g->xml = xml;
    g->list = list;
    g->growth = growth;
    g->depth = g->owed = 0;
    clear_text(text);
    xml->nodes = 0;
    start_node(g, HALYARDFIG_KIND_ROOT);
    if (chance(dice, 50))
        put_declaration(dice, text, growth.loose);
    put_white(dice, text, growth.loose, false);
    grow(g);
    put_white(dice, text, growth.loose, false);
    end_node(g, 0);
    if (text->overflowed)
        abort();
}

/* Damage. */

/* Pieces of XML that are wanted somewhere, or nowhere. */
static const char *const pieces[] = {"<",
                                     ">",
                                     "/>",
                                     "</",
                                     "/",
                                     "<a",
                                     "<a>",
                                     "</a>",
                                     "<a/>",
                                     "<b",
                                     "</b>",
                                     " ",
                                     "\t",
                                     "\n",
                                     "\r",
                                     "x",
                                     "b",
                                     "&",
                                     "&lt;",
                                     "&amp;",
                                     "&l",
                                     "&#",
                                     "&#65;",
                                     "<!",
                                     "<!--",
                                     "<?",
                                     "<?xml ",
                                     "<?xml",
                                     "?>",
                                     "?",
                                     "]",
                                     "]]",
                                     "]]>",
                                     ":",
                                     "-",
                                     ".",
                                     "1",
                                     "_",
                                     "=",
                                     "\"",
                                     "'",
                                     "1.",
                                     "version",
                                     "encoding=",
                                     " standalone=",
                                     "'no'",
                                     "\"yes\"",
                                     "utf-8",
                                     "'UTF-8'",
                                     "'latin1'",
                                     "\"L",
                                     "\xC2",
                                     "\xC3",
                                     "\xC3\xA9",
                                     "\xCC\x81",
                                     "\xB7",
                                     "\xED",
                                     "\xED\xA0\x80",
                                     "\xED\x9F\xBF",
                                     "\xEF\xBB\xBF",
                                     "\xEF\xBF\xBE",
                                     "\xEF\xBF\xBD",
                                     "\xF0\x8F\xBF\xBF",
                                     "\xF4\x90",
                                     "\xF5",
                                     "\xE0\x9F",
                                     "\xC1",
                                     "\x01",
                                     "\x7F",
                                     "\x1F",
                                     " b='c'",
                                     "<![CDATA[",
                                     "<a:b/>",
                                     " ?>",
                                     "<?xml version='1.0'?>"};
enum { PIECES = sizeof pieces / sizeof pieces[0] };

/* Puts bytes in the place of others. */
static void replace(struct text *text, size_t place, size_t removed, const char *bytes, size_t count)
{
    size_t rest = text->length - place - removed;
    if (place + count + rest > TEXT_ROOM)
        return;
    memmove(text->bytes + place + count, text->bytes + place + removed, rest);
    memcpy(text->bytes + place, bytes, count);
    text->length = place + count + rest;
}

static void damage_once(struct dice *dice, struct text *text)
{
    enum { HEAD_BYTES = 90 };
    size_t reach = chance(dice, 40) && text->length > HEAD_BYTES ? HEAD_BYTES : text->length;
    size_t place = below(dice, reach + 1), left = text->length - place;
    size_t removed = chance(dice, 50) ? 0 : between(dice, 1, chance(dice, 80) ? 1 : 6);
    const char *piece = pieces[below(dice, PIECES)];
    char byte = (char)roll(dice);
    removed = removed < left ? removed : left;
    if (removed > 0 && chance(dice, 40))
        replace(text, place, removed, "", 0);
    else if (chance(dice, 30))
        replace(text, place, removed, &byte, 1);
    else
        replace(text, place, removed, piece, strlen(piece));
}

void damage_xml(struct dice *dice, struct text *text)
{
    if (chance(dice, 15))
        text->length = below(dice, text->length + 1);
    for (size_t times = chance(dice, 70) ? 1 : 3; times > 0; times--)
        damage_once(dice, text);
}

void make_xml_soup(struct dice *dice, struct text *text, size_t times)
{
    static const char *const starts[] = {"", "", "<a>", "<a", "<a ", "<?xml ", "<?xml version='1.0'", "<a></", "<a/>"};
    clear_text(text);
    put_word(text, starts[below(dice, sizeof starts / sizeof starts[0])]);
    put_soup(dice, text, pieces, PIECES, times);
}
