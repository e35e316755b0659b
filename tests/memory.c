/* Arbitrary memory into every call: no trap, nothing written that may not be, the same answer twice. */
#include "file_making.h"
#include "halyardfig.h"
#include "twin.h"

#include <string.h>

enum { MOST_NODES_TRIED = 40, MOST_ITEMS_TRIED = 60 };

static struct list list;
static struct text text;
static struct query query, second;
static struct table table;

/* A length that is mostly small, sometimes at a limit. */
static size_t any_length(struct dice *dice, size_t usual, size_t limit)
{
    size_t throw = below(dice, 50);
    if (throw == 0)
        return between(dice, limit - 1, limit);
    return throw < 4 ? 0 : between(dice, 0, usual);
}

static void any_text(struct dice *dice)
{
    text.length = any_length(dice, 80, TEXT_ROOM);
    if (chance(dice, 40)) {
        scatter(dice, text.bytes, text.length);
        return;
    }
    static const char bytes[] = "/////..::||[[]](()))**aab\n\r\t ornotdextself-_1";
    for (size_t i = 0; i < text.length; i++)
        text.bytes[i] = (uint8_t)bytes[below(dice, sizeof bytes)];
}

static void any_list(struct dice *dice)
{
    make_list(dice, &list, (unsigned)below(dice, 6));
    if (chance(dice, 30))
        damage_list(dice, &list);
    if (chance(dice, 80))
        return;
    list.length = any_length(dice, 60, LIST_ROOM);
    for (size_t i = 0; i < list.length; i++)
        list.bytes[i] = chance(dice, 90) ? (uint8_t)between(dice, 'a', 'z') : (uint8_t)roll(dice);
    for (size_t i = 0; i < list.length; i++)
        if (chance(dice, 20))
            list.bytes[i] = '\n';
}

static uint32_t any_item(struct dice *dice)
{
    size_t throw = below(dice, 20);
    if (throw == 0)
        return (uint32_t)roll(dice);
    if (throw < 7)
        return PATH_ITEM(below(dice, 3));
    if (throw < 14)
        return STEP_ITEM(below(dice, AXES), below(dice, 5), below(dice, 3));
    if (throw < 19)
        return (uint32_t)between(dice, AND_ITEM, NOT_ITEM);
    return PATH_ITEM(below(dice, MOST_COUNT + 1));
}

static void any_query(struct dice *dice, struct query *made)
{
    size_t throw = below(dice, 10);
    if (throw < 3) {
        make_query(dice, made, (struct bounds){MOST_ITEMS_TRIED / 2, 3, 3, 4});
        if (throw == 0)
            damage_query(dice, made);
        return;
    }
    made->count = any_length(dice, MOST_ITEMS_TRIED, ITEM_ROOM);
    if (throw < 5)
        scatter(dice, made->items, made->count * sizeof made->items[0]);
    else
        for (size_t i = 0; i < made->count; i++)
            made->items[i] = any_item(dice);
}

static void any_table(struct dice *dice)
{
    make_table(dice, &table, between(dice, 0, MOST_NODES_TRIED), 4);
    if (chance(dice, 40))
        make_marks(dice, &table, 80);
    if (chance(dice, 50))
        damage_table(dice, &table);
    if (chance(dice, 70))
        return;
    scatter(dice, table.parent, table.nodes * sizeof table.parent[0]);
    for (size_t i = 0; i < table.nodes && chance(dice, 95); i++) {
        table.parent[i] = (uint16_t)below(dice, i + 2);
        table.kind[i] = (uint16_t)below(dice, 5);
        table.marks[i] = (uint8_t)below(dice, 3);
    }
}

/* A length that mostly agrees with the table's. */
static size_t agreeing(struct dice *dice)
{
    return chance(dice, 98) ? table.nodes : between(dice, 0, MOST_NODES_TRIED);
}

/* Both answers are those of one call, so it must have looked at nothing else. */
static bool in_range(const char *call, uint64_t first, size_t most_value, unsigned most_number)
{
    uint64_t number = halyardfig_refused(first);
    if (number > most_number || (number == 0 && halyardfig_value(first) > most_value))
        return complain("%s gives an answer out of range", call);
    return twin_answer == first || complain("%s answers otherwise the second time", call);
}

static bool read_anything(struct dice *dice)
{
    any_text(dice);
    any_list(dice);
    size_t room = any_length(dice, 100, ITEM_ROOM);
    uint32_t version = chance(dice, 90) ? any_version(dice) : (uint32_t)roll(dice);
    if (!twin_read(dice, text.bytes, text.length, version, list.bytes, list.length, room))
        return false;
    uint64_t first = twin_answer;
    return twin_read(dice, text.bytes, text.length, version, list.bytes, list.length, room) &&
           in_range("read", first, room, HALYARDFIG_REFUSED_ROOM);
}

static bool print_anything(struct dice *dice)
{
    any_query(dice, &query);
    any_list(dice);
    size_t room = any_length(dice, 3000, TEXT_ROOM);
    bool brief = chance(dice, 50);
    if (!twin_print(dice, brief, query.items, query.count, list.bytes, list.length, room))
        return false;
    uint64_t first = twin_answer;
    return twin_print(dice, brief, query.items, query.count, list.bytes, list.length, room) &&
           in_range("print", first, room, HALYARDFIG_REFUSED_ROOM);
}

static bool compose_anything(struct dice *dice)
{
    any_query(dice, &query);
    any_query(dice, &second);
    size_t room = any_length(dice, 5000, ITEM_ROOM);
    if (!twin_compose(dice, query.items, query.count, second.items, second.count, room))
        return false;
    uint64_t first = twin_answer;
    return twin_compose(dice, query.items, query.count, second.items, second.count, room) &&
           in_range("compose", first, room, HALYARDFIG_REFUSED_ROOM);
}

static bool compose_anything_leanly(struct dice *dice)
{
    any_query(dice, &query);
    any_query(dice, &second);
    size_t room = any_length(dice, 5000, ITEM_ROOM);
    if (!twin_compose_lean(dice, query.items, query.count, second.items, second.count, room))
        return false;
    uint64_t first = twin_answer;
    return twin_compose_lean(dice, query.items, query.count, second.items, second.count, room) &&
           in_range("compose_lean", first, room, HALYARDFIG_REFUSED_ROOM);
}

static bool run_anything(struct dice *dice)
{
    if (chance(dice, 50))
        make_query(dice, &query, (struct bounds){MOST_ITEMS_TRIED / 2, 3, 3, 4});
    else
        any_query(dice, &query);
    any_table(dice);
    size_t kinds = agreeing(dice), given = agreeing(dice), marks = agreeing(dice);
    size_t scratch = any_length(dice, 2000, 20000);
    uint64_t first = 0;
    for (unsigned time = 0; time < 2; time++) {
        if (!twin_run(dice, query.items, query.count, table.parent, table.nodes, table.kind, kinds, table.marks, given,
                      marks, scratch))
            return false;
        first = time == 0 ? twin_answer : first;
    }
    return in_range("run", first, table.nodes, HALYARDFIG_REFUSED_ROOM);
}

static bool extract_anything(struct dice *dice)
{
    any_table(dice);
    size_t kinds = agreeing(dice), marks = agreeing(dice), room = between(dice, 0, MOST_NODES_TRIED);
    size_t kind_room = chance(dice, 95) ? room : between(dice, 0, MOST_NODES_TRIED);
    uint64_t first = 0;
    for (unsigned time = 0; time < 2; time++) {
        if (!twin_extract(dice, table.parent, table.nodes, table.kind, kinds, table.marks, marks, room, kind_room))
            return false;
        first = time == 0 ? twin_answer : first;
    }
    return in_range("extract", first, room, HALYARDFIG_REFUSED_ROOM);
}

/* Any bytes, pieces of XML, or a damaged text. */
static void any_xml(struct dice *dice)
{
    static struct xml xml;
    size_t throw = below(dice, 10);
    if (throw < 3) {
        any_text(dice);
    } else if (throw < 6 || list.count == 0) {
        make_xml_soup(dice, &text, between(dice, 0, 40));
    } else {
        make_xml(dice, &xml, &list, any_growth(dice));
        text = xml.text;
        if (throw < 9)
            damage_xml(dice, &text);
    }
}

static bool read_any_xml(struct dice *dice)
{
    make_list(dice, &list, (unsigned)below(dice, 6));
    any_xml(dice);
    if (chance(dice, 20))
        any_list(dice);
    size_t room = any_length(dice, 60, NODE_ROOM), rooms[COLUMNS] = {room, room, room, room};
    if (chance(dice, 2))
        rooms[below(dice, COLUMNS)] = any_length(dice, 60, NODE_ROOM);
    if (!twin_read_xml(dice, text.bytes, text.length, list.bytes, list.length, rooms))
        return false;
    uint64_t first = twin_answer;
    return twin_read_xml(dice, text.bytes, text.length, list.bytes, list.length, rooms) &&
           in_range("read_xml", first, room, HALYARDFIG_REFUSED_LEFT_OUT);
}

/* Any text and list with the columns that they are, or with any, and any marks. */
static void any_file(struct dice *dice, struct file *file)
{
    make_list(dice, &list, (unsigned)below(dice, 6));
    any_xml(dice);
    if (chance(dice, 10))
        any_list(dice);
    file->list = list;
    file->xml.text = text;
    if (!read_text(file) || chance(dice, 10)) {
        any_table(dice);
        file->table = table;
        scatter(dice, file->xml.column[BEGIN_COLUMN], table.nodes * sizeof(uint16_t));
        scatter(dice, file->xml.column[END_COLUMN], table.nodes * sizeof(uint16_t));
    }
    if (chance(dice, 60))
        mark_some(dice, file);
    if (chance(dice, 20))
        damage_table(dice, &file->table);
    if (chance(dice, 10))
        lent_column(file, (enum column)below(dice, COLUMNS))[below(dice, file->table.nodes + 1)] = (uint16_t)roll(dice);
}

static bool write_any_xml(struct dice *dice)
{
    static struct file file;
    any_file(dice, &file);
    const uint16_t *columns[COLUMNS];
    size_t lengths[COLUMNS + 1];
    for (unsigned i = 0; i < COLUMNS; i++)
        columns[i] = lent_column(&file, i);
    for (unsigned i = 0; i <= COLUMNS; i++)
        lengths[i] = chance(dice, 99) ? file.table.nodes : between(dice, 0, MOST_NODES_TRIED);
    size_t room = any_length(dice, 2 * file.xml.text.length, FILE_ROOM);
    uint64_t first = 0;
    for (unsigned time = 0; time < 2; time++) {
        if (!twin_write_xml(dice, file.xml.text.bytes, file.xml.text.length, file.list.bytes, file.list.length, columns,
                            file.table.marks, lengths, room))
            return false;
        first = time == 0 ? twin_answer : first;
    }
    return in_range("write_xml", first, room, HALYARDFIG_REFUSED_COLUMNS);
}

static bool height_of_anything(struct dice *dice)
{
    any_query(dice, &query);
    if (!twin_height(query.items, query.count))
        return false;
    uint64_t first = twin_answer;
    return twin_height(query.items, query.count) && in_range("height", first, ITEM_ROOM, HALYARDFIG_REFUSED_QUERY);
}

static bool paths_of_anything(struct dice *dice)
{
    any_query(dice, &query);
    if (!twin_paths(query.items, query.count))
        return false;
    uint64_t first = twin_answer;
    return twin_paths(query.items, query.count) && in_range("paths", first, ITEM_ROOM, HALYARDFIG_REFUSED_QUERY);
}

static bool scratch_of_anything(struct dice *dice)
{
    size_t numbers[SCRATCH_NUMBERS];
    for (size_t i = 0; i < SCRATCH_NUMBERS; i++)
        numbers[i] = chance(dice, 80) ? between(dice, 0, 4097) : (size_t)roll(dice);
    if (!twin_scratch(numbers))
        return false;
    uint64_t first = twin_answer;
    return twin_scratch(numbers) && in_range("scratch", first, 100679680, HALYARDFIG_REFUSED_LENGTH);
}

/* Any bytes as views, cut into lines, or good ones, and any masks. */
static bool role_of_anything(struct dice *dice)
{
    static struct text views, asked;
    static halyardfig_role roles[HALYARDFIG_ROLES + 1];
    list_of(&list, "a b");
    if (chance(dice, 30))
        any_list(dice);
    any_text(dice);
    views = text;
    if (chance(dice, 50)) {
        clear_text(&views);
        for (size_t lines = below(dice, 5); lines > 0; lines--)
            put_word(&views, chance(dice, 95) ? "/a|//b[a]\n" : "/.\n\n");
    } else if (views.length > 0) {
        views.bytes[views.length - 1] = '\n';
    }
    any_text(dice);
    asked = text;
    if (chance(dice, 40)) {
        clear_text(&asked);
        put_word(&asked, chance(dice, 50) ? "/a[not(b)]" : "//node()|/b");
    }
    size_t count = chance(dice, 95) ? below(dice, 5) : HALYARDFIG_ROLES + below(dice, 2);
    for (size_t i = 0; i < count; i++)
        roles[i].views = chance(dice, 90) ? (uint32_t)between(dice, 0, 3) : (uint32_t)roll(dice);
    uint32_t role = (uint32_t)(chance(dice, 90) ? below(dice, count) : chance(dice, 50) ? count : roll(dice));
    size_t room = any_length(dice, 1000, ITEM_ROOM);
    uint64_t first = 0;
    for (unsigned time = 0; time < 2; time++) {
        if (!twin_for_role(dice, views.bytes, views.length, list.bytes, list.length, roles, count, role, asked.bytes,
                           asked.length, room))
            return false;
        first = time == 0 ? twin_answer : first;
    }
    return in_range("for_role", first, room, HALYARDFIG_REFUSED_VIEW);
}

int main(void)
{
    group_start("memory");
    try_cases("read", 12000, read_anything);
    try_cases("print", 10000, print_anything);
    try_cases("compose", 8000, compose_anything);
    try_cases("compose_lean", 8000, compose_anything_leanly);
    try_cases("run", 15000, run_anything);
    try_cases("extract", 10000, extract_anything);
    try_cases("read_xml", 15000, read_any_xml);
    try_cases("write_xml", 15000, write_any_xml);
    try_cases("height", 6000, height_of_anything);
    try_cases("paths", 6000, paths_of_anything);
    try_cases("scratch", 5000, scratch_of_anything);
    try_cases("for_role", 10000, role_of_anything);
    return group_end();
}
