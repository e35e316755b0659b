/*
 * Makes documents in files, and inputs of the program that prints what a view shows of them.
 * Each case is a folder below the one that is named: the documents, and the file `input` with a view, a list and their
 * names. A line starts with a letter: C case, D its folder.
 */
#define _GNU_SOURCE
#include "cases.h"
#include "view_making.h"

#include <stdlib.h>
#include <sys/stat.h>

enum { DOCUMENTS = 50, NAMES_MOST = 8 };

static const char *folder;

static void write_document(struct dice *dice, const struct list *list, const struct list *known, const char *place,
                           const char *name)
{
    static struct xml xml;
    make_document(dice, &xml, list, known);
    FILE *document = create_in(place, name);
    fwrite(xml.text.bytes, 1, xml.text.length, document);
    fclose(document);
}

static bool sheets(struct dice *dice)
{
    static struct list list;
    char *place, name[32];
    make_list(dice, &list, (unsigned)between(dice, 2, NAMES_MOST + 1));
    struct list known = without_last(&list);
    if (asprintf(&place, "%s/%llu", folder, (unsigned long long)group_case()) < 0 || mkdir(place, 0777) != 0)
        return complain("no folder %s", place);
    FILE *input = create_in(place, "input");
    write_view(dice, &known, input);
    fwrite(known.bytes, 1, known.length, input);
    putc('\n', input);
    for (unsigned i = 0; i < DOCUMENTS; i++) {
        snprintf(name, sizeof name, "%u.xml", i);
        write_document(dice, &list, &known, place, name);
        fprintf(input, "%s/%s\n", place, name);
    }
    fclose(input);
    write_case("sheets");
    printf("D %s\n", place);
    free(place);
    return true;
}

int main(int count, char **words)
{
    if (count != 2)
        return 2;
    folder = words[1];
    group_start("sheet");
    try_cases("sheets", 60, sheets);
    return group_end();
}
