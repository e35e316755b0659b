/* What is lent to write the kept part of an XML text back, of samples or made at random. */
#include "file_making.h"

#include <stdlib.h>
#include <string.h>

enum { THROWS = 8, SCRATCH_ROOM = 1 << 18 };

void mark_all(struct file *file)
{
    struct table *table = &file->table;
    table->nodes = file->xml.nodes;
    memcpy(table->parent, file->xml.column[PARENT_COLUMN], sizeof table->parent);
    memcpy(table->kind, file->xml.column[KIND_COLUMN], sizeof table->kind);
    memset(table->marks, 1, sizeof table->marks);
}

bool read_text(struct file *file)
{
    struct xml *xml = &file->xml;
    uint64_t answer = halyardfig_read_xml(xml->text.bytes, xml->text.length, file->list.bytes, file->list.length,
                                          xml->column[PARENT_COLUMN], NODE_ROOM, xml->column[KIND_COLUMN], NODE_ROOM,
                                          xml->column[BEGIN_COLUMN], NODE_ROOM, xml->column[END_COLUMN], NODE_ROOM);
    xml->nodes = halyardfig_refused(answer) == 0 ? halyardfig_value(answer) : 0;
    mark_all(file);
    return halyardfig_refused(answer) == 0;
}

bool start_file(struct file *file, const char *names, const char *text)
{
    list_of(&file->list, names);
    clear_text(&file->xml.text);
    put_word(&file->xml.text, text);
    return read_text(file);
}

void make_file(struct dice *dice, struct file *file)
{
    make_list(dice, &file->list, chance(dice, 5) ? HALYARDFIG_NAMES : (unsigned)between(dice, 1, 8));
    make_xml(dice, &file->xml, &file->list, any_growth(dice));
    mark_all(file);
}

/* Runs, each with an element behind it. */
static void put_joins(struct dice *dice, struct text *text, unsigned depth)
{
    static const char *const runs[] = {"]",  "]",  "]]",     ">",     "]>",        "]]]", ">]", "]]&gt;", "&gt;", "x",
                                       ">>", "]]", "&amp;]", "]&lt;", "\xC3\xA9]", "",    "]x", "\r",     "\n"};
    static const char *const empties[] = {"<b/>", "<b></b>", "<b ></b\n>", "<a/>"};
    for (size_t times = between(dice, 1, 7); times > 0; times--) {
        put_word(text, runs[below(dice, sizeof runs / sizeof runs[0])]);
        if (depth == 0 || chance(dice, 70)) {
            put_word(text, empties[below(dice, sizeof empties / sizeof empties[0])]);
        } else {
            put_word(text, "<b>");
            put_joins(dice, text, depth - 1);
            put_word(text, "</b>");
        }
    }
    put_word(text, runs[below(dice, sizeof runs / sizeof runs[0])]);
}

void make_joins(struct dice *dice, struct file *file)
{
    list_of(&file->list, "a b");
    clear_text(&file->xml.text);
    put_word(&file->xml.text, "<a>");
    put_joins(dice, &file->xml.text, (unsigned)below(dice, 3));
    put_word(&file->xml.text, "</a>");
    if (!read_text(file))
        abort();
}

void make_large_file(struct dice *dice, struct file *file)
{
    static const char longest[] = "nnnnnnnnnnnnnnnnnnnnnnnnnnnnnnnnnnnnnnnnnnnnnnnnnnnnnnnnnnnnnnnn b";
    list_of(&file->list, chance(dice, 50) ? "a b" : longest);
    make_xml(dice, &file->xml, &file->list, large_growth(dice));
    mark_all(file);
}

bool marks_element(const struct file *file)
{
    for (size_t i = 0; i < file->table.nodes; i++)
        if (file->table.marks[i] == 1 && file->table.kind[i] >= HALYARDFIG_KIND_ELEMENT)
            return true;
    return false;
}

void mark_by_view(struct dice *dice, struct file *file)
{
    static struct query view;
    static uint8_t given[NODE_ROOM], scratch[SCRATCH_ROOM];
    struct table *table = &file->table;
    memset(given, 1, sizeof given);
    for (unsigned throws = 0; throws == 0 || (throws < THROWS && !marks_element(file)); throws++) {
        make_query(dice, &view, (struct bounds){between(dice, 1, 20), (unsigned)below(dice, 4), 3, file->list.count});
        if (chance(dice, 50))
            mix_axes(dice, &view);
        uint64_t answer = halyardfig_run(view.items, view.count, table->parent, table->nodes, table->kind, table->nodes,
                                         given, table->nodes, table->marks, table->nodes, scratch, sizeof scratch);
        if (halyardfig_refused(answer) != 0)
            abort();
    }
}

void mark_some(struct dice *dice, struct file *file)
{
    unsigned percent = (unsigned)between(dice, 40, 99);
    for (unsigned throws = 0; throws == 0 || (throws < THROWS && !marks_element(file)); throws++)
        make_marks(dice, &file->table, percent);
}

uint16_t *lent_column(struct file *file, enum column column)
{
    if (column == PARENT_COLUMN)
        return file->table.parent;
    return column == KIND_COLUMN ? file->table.kind : file->xml.column[column];
}

uint64_t write_file(const struct file *file, uint8_t *out, size_t room)
{
    const struct xml *xml = &file->xml;
    const struct table *table = &file->table;
    return halyardfig_write_xml(xml->text.bytes, xml->text.length, file->list.bytes, file->list.length, table->parent,
                                table->nodes, table->kind, table->nodes, xml->column[BEGIN_COLUMN], table->nodes,
                                xml->column[END_COLUMN], table->nodes, table->marks, table->nodes, out, room);
}
