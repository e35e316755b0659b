/* Views and documents for the programs that show what a view keeps of documents. */
#define _GNU_SOURCE
#include "view_making.h"

#include <stdlib.h>

enum { NODES_MOST = 400, ITEMS_MOST = 24, NESTING_MOST = 4, PATHS_MOST = 3 };

void write_view(struct dice *dice, const struct list *list, FILE *input)
{
    static struct query query;
    static struct text text;
    if (chance(dice, 70))
        make_axis_query(dice, &query, (unsigned)below(dice, AXES), list->count);
    else
        make_query(dice, &query,
                   (struct bounds){ITEMS_MOST, (unsigned)between(dice, 0, NESTING_MOST), PATHS_MOST, list->count});
    make_text(dice, &text, &query, list, HALYARDFIG_XPATH_1);
    for (size_t i = 0; i < text.length; i++)
        putc(text.bytes[i] == '\n' ? ' ' : text.bytes[i], input);
    putc('\n', input);
}

struct list without_last(const struct list *list)
{
    struct list shorter = *list;
    size_t length;
    shorter.length = (size_t)(name_at(list, list->count - 1, &length) - list->bytes);
    shorter.count--;
    return shorter;
}

/* Puts in an attribute of the top element. */
static void put_attribute(struct xml *xml, const struct list *list)
{
    static struct text made;
    size_t length, top = xml->column[BEGIN_COLUMN][1];
    name_at(list, xml->column[KIND_COLUMN][1] - HALYARDFIG_KIND_ELEMENT, &length);
    clear_text(&made);
    for (size_t i = 0; i < xml->text.length; i++) {
        if (i == top + 1 + length)
            put_word(&made, " a='b'");
        put_byte(&made, xml->text.bytes[i]);
    }
    xml->text = made;
}

static void spoil(struct dice *dice, struct xml *xml, const struct list *list)
{
    static const char *const left_out[] = {"<!-- -->", "<?p?>"};
    if (chance(dice, 5))
        xml->text.length = between(dice, xml->column[BEGIN_COLUMN][1], xml->text.length - 1);
    else if (chance(dice, 3))
        put_word(&xml->text, left_out[below(dice, 2)]);
    else if (chance(dice, 3))
        put_attribute(xml, list);
}

void make_document(struct dice *dice, struct xml *xml, const struct list *list, const struct list *known)
{
    struct growth growth = any_growth(dice);
    if (growth.nodes > NODES_MOST)
        growth.nodes = NODES_MOST;
    make_xml(dice, xml, chance(dice, 5) ? list : known, growth);
    spoil(dice, xml, list);
}

FILE *create_in(const char *folder, const char *name)
{
    char *path;
    FILE *file = asprintf(&path, "%s/%s", folder, name) < 0 ? NULL : fopen(path, "wb");
    if (file == NULL) {
        perror(name);
        exit(2);
    }
    free(path);
    return file;
}
