/* Writing XML back against the model of 02, 2026-02; and what is written, read again, against the extracted table. */
#include "file_making.h"
#include "halyardfig.h"
#include "twin.h"

#include <string.h>

static struct file file;

/* Writes with the library and with the model, each lent as much as the file has. */
static bool writes(struct dice *dice, size_t room)
{
    size_t n = file.table.nodes;
    const uint16_t *columns[COLUMNS];
    for (unsigned i = 0; i < COLUMNS; i++)
        columns[i] = lent_column(&file, i);
    return twin_write_xml(dice, file.xml.text.bytes, file.xml.text.length, file.list.bytes, file.list.length, columns,
                          file.table.marks, (size_t[]){n, n, n, n, n}, room);
}

/* Room for all that can be written of the text. */
static size_t enough(void)
{
    return 2 * file.xml.text.length;
}

/* Makes each row of text nodes side by side one: those of one parent, one right behind the other. */
static void join_texts(struct table *table)
{
    static uint16_t number[NODE_ROOM];
    size_t nodes = 0, last = 0;
    for (size_t i = 0; i < table->nodes; i++) {
        uint16_t parent = number[table->parent[i]];
        bool joins = i > 0 && table->kind[i] == HALYARDFIG_KIND_TEXT && table->kind[last] == HALYARDFIG_KIND_TEXT &&
                     table->parent[last] == parent;
        if (!joins) {
            table->parent[nodes] = parent;
            table->kind[nodes] = table->kind[i];
            last = nodes++;
        }
        number[i] = (uint16_t)last;
    }
    table->nodes = nodes;
}

/* What was written, read again with the same list, is the extracted table, its texts joined. */
static bool reads_back(void)
{
    static struct table kept;
    static uint16_t read[COLUMNS][NODE_ROOM];
    const struct table *table = &file.table;
    size_t n = table->nodes, length = halyardfig_value(twin_answer);
    if (length > TEXT_ROOM)
        return true;
    kept.nodes = halyardfig_value(halyardfig_extract(table->parent, n, table->kind, n, table->marks, n, kept.parent,
                                                     NODE_ROOM, kept.kind, NODE_ROOM));
    join_texts(&kept);
    uint64_t answer =
        halyardfig_read_xml(twin_bytes(), length, file.list.bytes, file.list.length, read[PARENT_COLUMN], NODE_ROOM,
                            read[KIND_COLUMN], NODE_ROOM, read[BEGIN_COLUMN], NODE_ROOM, read[END_COLUMN], NODE_ROOM);
    size_t bytes = kept.nodes * sizeof kept.parent[0];
    if (answer == kept.nodes && memcmp(read[PARENT_COLUMN], kept.parent, bytes) == 0 &&
        memcmp(read[KIND_COLUMN], kept.kind, bytes) == 0)
        return true;
    complain("read again, what was written is not the extracted table");
    show_text("written", twin_bytes(), length);
    return false;
}

/* The marks are good and the columns those of the text: all is written where an element is marked, and is not where the
   room is a byte short. */
static bool writes_kept(struct dice *dice)
{
    if (!writes(dice, enough()))
        return false;
    uint64_t answer = twin_answer, no_element = REFUSED(HALYARDFIG_REFUSED_NO_ELEMENT, 0);
    if (!marks_element(&file))
        return answer == no_element || complain("no element is marked, and that is not said");
    if (halyardfig_refused(answer) != 0)
        return complain("a good call is refused");
    if (!reads_back() || !writes(dice, answer - 1))
        return false;
    if (twin_answer != REFUSED(HALYARDFIG_REFUSED_ROOM, answer))
        return complain("room one short is not refused with the bytes needed");
    return writes(dice, answer + below(dice, 2)) && (twin_answer == answer || complain("enough room is refused"));
}

static bool all_of_it(struct dice *dice)
{
    make_file(dice, &file);
    return writes_kept(dice);
}

static bool some_of_it(struct dice *dice)
{
    make_file(dice, &file);
    mark_some(dice, &file);
    return writes_kept(dice);
}

static bool view_of_it(struct dice *dice)
{
    make_file(dice, &file);
    mark_by_view(dice, &file);
    return writes_kept(dice);
}

static bool joins(struct dice *dice)
{
    make_joins(dice, &file);
    mark_some(dice, &file);
    return writes_kept(dice);
}

static bool large_files(struct dice *dice)
{
    make_large_file(dice, &file);
    if (chance(dice, 70))
        mark_some(dice, &file);
    return writes_kept(dice);
}

/* Every row of a few runs with an element behind each but the last, every choice of these elements removed. */
static void every_join(void)
{
    static const char *const runs[] = {"]", "]]", ">", "]>", "]]&gt;", "&amp;]", ""};
    enum { ROW = 4, RUNS = sizeof runs / sizeof runs[0], ROWS = RUNS * RUNS * RUNS * RUNS, CHOICES = 1 << (ROW - 1) };
    struct dice dice = {group_seed()};
    list_of(&file.list, "a b");
    for (size_t first = 0; first < RUNS; first++) {
        bool good = true;
        for (size_t row = first; row < ROWS && good; row += RUNS) {
            clear_text(&file.xml.text);
            put_word(&file.xml.text, "<a>");
            for (size_t i = 0, left = row; i < ROW; i++, left /= RUNS) {
                put_word(&file.xml.text, runs[left % RUNS]);
                put_word(&file.xml.text, i + 1 < ROW ? "<b/>" : "</a>");
            }
            good = read_text(&file);
            for (size_t removed = 0; removed < CHOICES && good; removed++) {
                size_t element = 0;
                for (size_t i = 2; i < file.table.nodes; i++)
                    if (file.table.kind[i] != HALYARDFIG_KIND_TEXT)
                        file.table.marks[i] = (removed >> element++ & 1) == 0;
                good = writes(&dice, enough()) && reads_back();
            }
        }
        tally(good, "a row of runs that begins with `%s`", runs[first]);
    }
}

/* A number of a column becomes one less and one more, in every place in turn. */
static bool columns_by_one(struct dice *dice)
{
    do
        make_file(dice, &file);
    while (file.table.nodes > 60);
    if (chance(dice, 80))
        mark_some(dice, &file);
    for (unsigned c = 0; c < COLUMNS; c++)
        for (size_t i = 0; i < 2 * file.table.nodes; i++) {
            uint16_t *number = &lent_column(&file, c)[i / 2], before = *number;
            *number = (uint16_t)(i % 2 == 0 ? before - 1 : before + 1);
            if (!writes(dice, file.xml.text.length))
                return false;
            unsigned refused = halyardfig_refused(twin_answer);
            if (refused != HALYARDFIG_REFUSED_TABLE && refused != HALYARDFIG_REFUSED_MARKS &&
                refused != HALYARDFIG_REFUSED_NO_ELEMENT && refused != HALYARDFIG_REFUSED_COLUMNS)
                return complain("column %u changed by one at node %zu is answered by %u", c, i / 2, refused);
            *number = before;
        }
    return true;
}

/* Something of what is lent is damaged: the text, the list, the columns or the marks. */
static bool damaged(struct dice *dice)
{
    make_file(dice, &file);
    if (chance(dice, 70))
        mark_some(dice, &file);
    size_t throw = below(dice, 10);
    if (throw < 4) {
        damage_xml(dice, &file.xml.text);
    } else if (throw < 5) {
        damage_list(dice, &file.list);
    } else if (throw < 8) {
        damage_table(dice, &file.table);
    } else {
        uint16_t *column = lent_column(&file, throw == 8 ? BEGIN_COLUMN : END_COLUMN);
        column[below(dice, file.table.nodes)] = (uint16_t)below(dice, file.xml.text.length + 2);
    }
    return writes(dice, chance(dice, 90) ? enough() : below(dice, enough() + 1));
}

/* A text with the columns of another: the same with a byte changed, taken out or put in, or the columns of the damaged
   text where that is read. */
static bool another_text(struct dice *dice)
{
    static struct text before;
    make_joins(dice, &file);
    mark_some(dice, &file);
    before = file.xml.text;
    damage_xml(dice, &file.xml.text);
    if (!writes(dice, enough()))
        return false;
    if (!read_text(&file))
        return true;
    if (!writes_kept(dice))
        return false;
    file.xml.text = before;
    return writes(dice, enough());
}

int main(void)
{
    group_start("file_model");
    try_cases("all of it", 500, all_of_it);
    try_cases("some of it", 3000, some_of_it);
    try_cases("a view of it", 2000, view_of_it);
    try_cases("joins", 6000, joins);
    try_cases("large files", 60, large_files);
    try_cases("columns by one", 150, columns_by_one);
    try_cases("damaged", 6000, damaged);
    try_cases("another text", 5000, another_text);
    every_join();
    return group_end();
}
