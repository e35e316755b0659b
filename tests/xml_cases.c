/*
 * Writes XML texts for another parser, with what the library makes of each.
 * A line starts with a letter: C case, N names, T the text in hexadecimal; then R the number and place of a refusal,
 * or the columns, P parents, K kinds, B where nodes begin, and E where they end.
 */
#include "cases.h"
#include "halyardfig.h"
#include "xml_making.h"

#include <stdio.h>
#include <string.h>

static struct list list;
static struct xml xml;
static uint16_t columns[COLUMNS][NODE_ROOM];

/* Of what is left out the parsers need not agree, so that there is no case. */
static void write_read(const char *what, const struct text *text)
{
    static const char letters[COLUMNS] = {
        [PARENT_COLUMN] = 'P', [KIND_COLUMN] = 'K', [BEGIN_COLUMN] = 'B', [END_COLUMN] = 'E'};
    uint64_t answer = halyardfig_read_xml(text->bytes, text->length, list.bytes, list.length, columns[PARENT_COLUMN],
                                          NODE_ROOM, columns[KIND_COLUMN], NODE_ROOM, columns[BEGIN_COLUMN], NODE_ROOM,
                                          columns[END_COLUMN], NODE_ROOM);
    if (halyardfig_refused(answer) == HALYARDFIG_REFUSED_LEFT_OUT)
        return;
    write_case(what);
    write_names(&list);
    write_bytes('T', text->bytes, text->length);
    if (halyardfig_refused(answer) != 0)
        printf("R %u %u\n", halyardfig_refused(answer), halyardfig_place(answer));
    else
        for (unsigned i = 0; i < COLUMNS; i++)
            write_column(letters[i], columns[i], halyardfig_value(answer));
}

static void make_any(struct dice *dice)
{
    make_list(dice, &list, (unsigned)between(dice, 1, 8));
    make_xml(dice, &xml, &list, any_growth(dice));
}

static bool wanted(struct dice *dice)
{
    make_any(dice);
    write_read("wanted text", &xml.text);
    return true;
}

static bool damaged(struct dice *dice)
{
    make_any(dice);
    damage_xml(dice, &xml.text);
    write_read("damaged text", &xml.text);
    return true;
}

static bool soup(struct dice *dice)
{
    list_of(&list, "a b");
    make_xml_soup(dice, &xml.text, between(dice, 0, 8));
    write_read("soup", &xml.text);
    return true;
}

static bool declared(struct dice *dice)
{
    list_of(&list, "a");
    clear_text(&xml.text);
    put_declaration(dice, &xml.text, chance(dice, 50) ? 0 : 30);
    if (chance(dice, 80))
        damage_xml(dice, &xml.text);
    put_word(&xml.text, "<a/>");
    write_read("declaration", &xml.text);
    return true;
}

/* One byte changed or put in, in a small text; the byte and its place are those of the case. */
static bool one_byte(struct dice *dice)
{
    static const char small[] =
        "<?xml version='1.0' encoding='utf-8' standalone='no'?>\n<a >\xC3\xA9<b/>]]&lt;\xEF\xBF\xBD</a >\n";
    size_t place = group_case() / 2 % sizeof small;
    list_of(&list, "a b");
    clear_text(&xml.text);
    for (size_t i = 0; i < sizeof small - 1; i++) {
        if (i == place)
            put_byte(&xml.text, (uint8_t)roll(dice));
        if (i != place || group_case() % 2 == 0)
            put_byte(&xml.text, (uint8_t)small[i]);
    }
    write_read("one byte", &xml.text);
    return true;
}

static void built(const char *part, size_t times, const char *middle, const char *closer)
{
    clear_text(&xml.text);
    for (size_t i = 0; i < times; i++)
        put_word(&xml.text, part);
    put_word(&xml.text, middle);
    for (size_t i = 0; i < times; i++)
        put_word(&xml.text, closer);
    write_read("built", &xml.text);
}

/* The deepest and widest texts, and the three kinds that libxml2 takes and XML 1.0 does not. */
static void edges(void)
{
    static const uint8_t zero[] = "<a/>\0";
    list_of(&list, "a b");
    built("<a>", NODE_ROOM - 1, "", "</a>");
    built("<a>", NODE_ROOM, "", "</a>");
    built("<a>", OPEN_MOST, "", "");
    built("<a>", 1, "", "</a>");
    built("<a>x<b/>", NODE_ROOM / 4 - 1, "]]", "\r\n</a>");
    built("", 0, "<?xml version='1.'?><a/>", "");
    built("", 0, "<?xml version='1.0' encoding='UTF-8'standalone='no'?><a/>", "");
    clear_text(&xml.text);
    for (size_t i = 0; i < sizeof zero - 1; i++)
        put_byte(&xml.text, zero[i]);
    write_read("built", &xml.text);
}

int main(void)
{
    group_start("xml_engine");
    edges();
    try_cases("wanted text", 3000, wanted);
    try_cases("damaged text", 12000, damaged);
    try_cases("soup", 12000, soup);
    try_cases("declaration", 8000, declared);
    try_cases("one byte", 12000, one_byte);
    return group_end();
}
