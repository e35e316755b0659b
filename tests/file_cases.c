/*
 * Writes files that the library made of the kept part of XML texts, for another parser.
 * A line starts with a letter: C case, N names, T the text in hexadecimal, its columns P parents, K kinds, B where
 * nodes begin and E where they end, M the marks, and W what is written of it, in hexadecimal.
 */
#include "cases.h"
#include "file_making.h"
#include "halyardfig.h"

static struct file file;

/* Where no element is marked there is no file. */
static bool write_kept(const char *what)
{
    static uint8_t written[FILE_ROOM];
    static const char letters[COLUMNS] = {
        [PARENT_COLUMN] = 'P', [KIND_COLUMN] = 'K', [BEGIN_COLUMN] = 'B', [END_COLUMN] = 'E'};
    uint64_t answer = write_file(&file, written, sizeof written);
    if (!marks_element(&file))
        return answer == REFUSED(HALYARDFIG_REFUSED_NO_ELEMENT, 0) ||
               complain("no element is marked, and it is not said");
    if (halyardfig_refused(answer) != 0)
        return complain("a good call is refused with %u", halyardfig_refused(answer));
    write_case(what);
    write_names(&file.list);
    write_bytes('T', file.xml.text.bytes, file.xml.text.length);
    for (unsigned i = 0; i < COLUMNS; i++)
        write_column(letters[i], lent_column(&file, i), file.table.nodes);
    write_marks('M', file.table.marks, file.table.nodes);
    write_bytes('W', written, halyardfig_value(answer));
    return true;
}

static bool whole(struct dice *dice)
{
    make_file(dice, &file);
    return write_kept("whole");
}

static bool random_marks(struct dice *dice)
{
    make_file(dice, &file);
    mark_some(dice, &file);
    return write_kept("random marks");
}

static bool random_views(struct dice *dice)
{
    make_file(dice, &file);
    mark_by_view(dice, &file);
    return write_kept("random views");
}

static bool joins(struct dice *dice)
{
    make_joins(dice, &file);
    mark_some(dice, &file);
    return write_kept("joins");
}

static bool joins_of_views(struct dice *dice)
{
    make_joins(dice, &file);
    mark_by_view(dice, &file);
    return write_kept("joins of views");
}

static bool large_files(struct dice *dice)
{
    make_large_file(dice, &file);
    if (chance(dice, 50))
        mark_some(dice, &file);
    else
        mark_by_view(dice, &file);
    return write_kept("large files");
}

int main(void)
{
    group_start("file_engine");
    try_cases("whole", 400, whole);
    try_cases("random marks", 3000, random_marks);
    try_cases("random views", 3000, random_views);
    try_cases("joins", 4000, joins);
    try_cases("joins of views", 1500, joins_of_views);
    try_cases("large files", 30, large_files);
    return group_end();
}
