/*
 * Makes inputs of the program that shows what a query keeps of a file, each in a file of its own in the folder that is
 * named. A line starts with a letter: C case, D the path of the input.
 */
#define _GNU_SOURCE
#include "cases.h"
#include "view_making.h"

enum { NAMES_MOST = 8 };

static const char *folder;

static bool inputs(struct dice *dice)
{
    static struct list list;
    static struct xml xml;
    char name[32];
    make_list(dice, &list, (unsigned)between(dice, 2, NAMES_MOST + 1));
    struct list known = without_last(&list);
    snprintf(name, sizeof name, "%llu", (unsigned long long)group_case());
    FILE *input = create_in(folder, name);
    write_view(dice, &known, input);
    fwrite(known.bytes, 1, known.length, input);
    putc('\n', input);
    make_document(dice, &xml, &list, &known);
    fwrite(xml.text.bytes, 1, xml.text.length, input);
    fclose(input);
    write_case("inputs");
    printf("D %s/%s\n", folder, name);
    return true;
}

int main(int count, char **words)
{
    if (count != 2)
        return 2;
    folder = words[1];
    group_start("show");
    try_cases("inputs", 400, inputs);
    return group_end();
}
