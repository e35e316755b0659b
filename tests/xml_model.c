/* Reading XML against the model of 02, 2026-01, and against the documents of which the texts were made. */
#include "halyardfig.h"
#include "twin.h"

#include <stdio.h>
#include <string.h>

enum { SCRATCH_ROOM = 4 * NODE_ROOM, ANY_BYTE = 256, SMALL_ROOM = 16 };

static struct list list;
static struct xml xml;
static struct text text;

/* A list with some names. */
static void make_names(struct dice *dice)
{
    if (chance(dice, 10))
        list_of(&list, "abc axc a aa abac ac axxc aba");
    else
        make_list(dice, &list, chance(dice, 5) ? HALYARDFIG_NAMES : (unsigned)between(dice, 1, 8));
}

static bool reads(struct dice *dice, const struct text *read, size_t room)
{
    const size_t rooms[COLUMNS] = {room, room, room, room};
    return twin_read_xml(dice, read->bytes, read->length, list.bytes, list.length, rooms);
}

/* What was read is a document that a query runs on: `/` keeps all of it. */
static bool can_be_run(size_t nodes)
{
    static const uint32_t root_query[] = {PATH_ITEM(0)};
    static uint8_t given[NODE_ROOM], marks[NODE_ROOM], scratch[SCRATCH_ROOM];
    memset(given, 1, nodes);
    uint64_t answer = halyardfig_run(root_query, 1, twin_column(PARENT_COLUMN), nodes, twin_column(KIND_COLUMN), nodes,
                                     given, nodes, marks, nodes, scratch, sizeof scratch);
    return answer == nodes || complain("a document that was read cannot be run: %u at %u", halyardfig_refused(answer),
                                       halyardfig_place(answer));
}

static bool same_columns(void)
{
    for (unsigned i = 0; i < COLUMNS; i++)
        if (memcmp(twin_column((enum column)i), xml.column[i], xml.nodes * sizeof(uint16_t)) != 0)
            return false;
    return true;
}

/* Reads a wanted text that was made, in room that suffices or not. */
static bool reads_made(struct dice *dice, size_t room)
{
    if (!reads(dice, &xml.text, room))
        return false;
    uint64_t expected = room < xml.nodes ? REFUSED(HALYARDFIG_REFUSED_ROOM, xml.nodes) : xml.nodes;
    if (twin_answer != expected || (room >= xml.nodes && !same_columns())) {
        complain("a wanted text is not read as the document that it is");
        show_text("text", xml.text.bytes, xml.text.length);
        return false;
    }
    return room < xml.nodes || can_be_run(xml.nodes);
}

static bool reads_wanted(struct dice *dice)
{
    make_names(dice);
    make_xml(dice, &xml, &list, any_growth(dice));
    size_t throw = below(dice, 5);
    return reads_made(dice, throw == 0   ? xml.nodes - 1
                            : throw == 1 ? below(dice, xml.nodes)
                            : throw == 2 ? xml.nodes + 7
                                         : xml.nodes);
}

/* White space behind the element, up to the limit. */
static void fill_up(struct dice *dice)
{
    while (xml.text.length < TEXT_ROOM)
        put_white(dice, &xml.text, 0, true);
    xml.column[END_COLUMN][0] = TEXT_ROOM;
}

/* The longest texts, with as many nodes as may be. */
static bool reads_large(struct dice *dice)
{
    list_of(&list, "a b");
    make_xml(dice, &xml, &list, large_growth(dice));
    if (chance(dice, 50))
        fill_up(dice);
    if (!reads_made(dice, NODE_ROOM))
        return false;
    damage_xml(dice, &xml.text);
    return reads(dice, &xml.text, NODE_ROOM);
}

static bool reads_damaged(struct dice *dice)
{
    make_names(dice);
    make_xml(dice, &xml, &list, any_growth(dice));
    damage_xml(dice, &xml.text);
    if (chance(dice, 10))
        damage_list(dice, &list);
    if (chance(dice, 10))
        list_of(&list, "");
    return reads(dice, &xml.text, chance(dice, 90) ? xml.nodes + SMALL_ROOM : below(dice, SMALL_ROOM));
}

static bool reads_soup(struct dice *dice)
{
    list_of(&list, chance(dice, 50) ? "a b" : "a");
    make_xml_soup(dice, &text, between(dice, 0, 10));
    return reads(dice, &text, SMALL_ROOM);
}

/* Declarations, mostly with one thing wrong. */
static bool reads_declaration(struct dice *dice)
{
    list_of(&list, "a");
    clear_text(&text);
    put_declaration(dice, &text, chance(dice, 50) ? 0 : 30);
    if (chance(dice, 85))
        damage_xml(dice, &text);
    put_word(&text, "<a/>");
    return reads(dice, &text, SMALL_ROOM);
}

/* Texts that pass through every place that reading knows. */
static const char *const passing[] = {
    "<?xml version=\"1.0\" encoding=\"UTF-8\" standalone=\"yes\"?> <a ><b\t/>x]]\xC3\xA9&lt;<b>&amp;&gt;</b\n>\r</a > ",
    "<?xml\tversion = '1.23' encoding = 'utf-8' standalone = 'no' ?>\n<ab.c-d_1/>",
    "<?xml version='1.0' standalone='no'?><a/>",
    " <a>\xE0\xA0\x80\xED\x9F\xBF\xEF\xBF\xBD\xEF\xBB\xBF\xF0\x90\x80\x80\xF4\x8F\xBF\xBF&apos;&quot;]>]]<b/>></a>",
};
enum { PASSING = sizeof passing / sizeof passing[0] };

static void take_passing(size_t which)
{
    clear_text(&text);
    put_word(&text, passing[which]);
}

/* Every byte put in at a place, and put in the place of the byte there; with all that follows, and with nothing. */
static bool every_byte_at(struct dice *dice, size_t which, size_t place)
{
    for (unsigned byte = 0; byte < ANY_BYTE; byte++)
        for (unsigned way = 0; way < 3; way++) {
            take_passing(which);
            text.length = way == 2 ? place + 1 : text.length;
            if (way == 0) {
                put_byte(&text, 0);
                memmove(text.bytes + place + 1, text.bytes + place, text.length - 1 - place);
            }
            text.bytes[place] = (uint8_t)byte;
            if (!reads(dice, &text, SMALL_ROOM))
                return false;
        }
    return true;
}

/* Each thing that is left out, and what only looks like one, put in at a place; with all that follows, and with
   nothing. */
static bool left_out_at(struct dice *dice, size_t which, size_t place)
{
    static const char *const things[] = {"<!",       "<?",      "&#",       "<?xml ",   "\xEF\xBB\xBF",
                                         "\xEF\xBB", "b=",      "latin1'",  "latin1\"", "u\"",
                                         "UTF-88'",  "utf-8\"", "\xCC\x80", "\xC2\xB7", ":"};
    for (size_t i = 0; i < sizeof things / sizeof things[0]; i++)
        for (unsigned cut = 0; cut < 2; cut++) {
            clear_text(&text);
            for (size_t at = 0; at < place; at++)
                put_byte(&text, (uint8_t)passing[which][at]);
            put_word(&text, things[i]);
            put_word(&text, cut == 0 ? passing[which] + place : "");
            if (!reads(dice, &text, SMALL_ROOM))
                return false;
        }
    return true;
}

static void every_place(void)
{
    struct dice dice = {group_seed()};
    list_of(&list, "a b ab.c-d_1");
    for (size_t which = 0; which < PASSING; which++)
        for (size_t place = 0; place <= strlen(passing[which]); place++) {
            tally(every_byte_at(&dice, which, place), "every byte at %zu of %s", place, passing[which]);
            tally(left_out_at(&dice, which, place), "a thing left out at %zu of %s", place, passing[which]);
        }
}

/* Every text of a few bytes of some that matter, behind a beginning. */
static void every_short_text(void)
{
    static const char bytes[] = "<>/a &;#!?]\xC3\xA9";
    static const char *const beginnings[] = {"", "<a>", "<a", "<a>&", "<a>]", "<a><b"};
    enum { LONGEST = 4, BYTES = sizeof bytes - 1 };
    struct dice dice = {group_seed()};
    list_of(&list, "a b");
    for (size_t b = 0; b < sizeof beginnings / sizeof beginnings[0]; b++) {
        bool good = true;
        for (size_t number = 0; number < BYTES * BYTES * BYTES * BYTES && good; number++) {
            clear_text(&text);
            put_word(&text, beginnings[b]);
            for (size_t i = 0, left = number; i < LONGEST; i++, left /= BYTES)
                put_byte(&text, (uint8_t)bytes[left % BYTES]);
            good = reads(&dice, &text, SMALL_ROOM);
        }
        tally(good, "every short text behind %s", beginnings[b]);
    }
}

int main(void)
{
    group_start("xml_model");
    try_cases("wanted text", 6000, reads_wanted);
    try_cases("large text", 150, reads_large);
    try_cases("damaged text", 20000, reads_damaged);
    try_cases("soup", 20000, reads_soup);
    try_cases("declaration", 15000, reads_declaration);
    every_place();
    every_short_text();
    return group_end();
}
