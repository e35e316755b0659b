/* Reads cases from standard input and holds what was printed of each input, the file `printed` in its folder, to a
   sheet counted here, by what libxml2 keeps of each document. */
#define _GNU_SOURCE
#include "view_checking.h"

#include <stdio.h>
#include <stdlib.h>
#include <string.h>

enum { NUMBERS = 19, UNREADABLE = 18 };

static struct view view;
static struct {
    unsigned long all[HALYARDFIG_NAMES], kept[HALYARDFIG_NAMES], hidden[HALYARDFIG_NAMES], refused[NUMBERS];
} now;

static void count_elements(xmlDocPtr document)
{
    for (xmlNodePtr node = document->children; node != NULL; node = next_node(node)) {
        if (node->type != XML_ELEMENT_NODE)
            continue;
        size_t v = number_of(&view, node);
        now.all[v]++;
        if (is_kept(node))
            now.kept[v]++;
        else
            now.hidden[v]++;
    }
}

static void count_document(const char *path)
{
    static uint8_t text[HALYARDFIG_TEXT_BYTES + 1];
    FILE *file = fopen(path, "rb");
    size_t length = file == NULL ? 0 : fread(text, 1, sizeof text, file);
    if (file != NULL)
        fclose(file);
    xmlDocPtr document = parse_xml(text, length);
    unsigned refusal = file == NULL                     ? UNREADABLE
                       : length > HALYARDFIG_TEXT_BYTES ? HALYARDFIG_REFUSED_LENGTH
                                                        : refusal_of(&view, document);
    if (refusal != 0)
        now.refused[refusal]++;
    else if (keep_nodes(&view, document))
        count_elements(document);
    else
        tally(false, "%s: libxml2 does not take %s", case_now(), view.xpath);
    xmlFreeDoc(document);
}

static void write_line(FILE *sheet, const char *name, unsigned long all, unsigned long kept, unsigned long hidden)
{
    fprintf(sheet, "%s %lu %lu %lu\n", name, all, kept, hidden);
}

static void write_sheet(FILE *sheet)
{
    unsigned long all = 0, kept = 0, hidden = 0;
    for (size_t v = 0; v < view.count; v++) {
        write_line(sheet, view.names[v], now.all[v], now.kept[v], now.hidden[v]);
        all += now.all[v];
        kept += now.kept[v];
        hidden += now.hidden[v];
    }
    write_line(sheet, "sum", all, kept, hidden);
    for (unsigned number = 0; number < NUMBERS; number++)
        if (now.refused[number] != 0)
            fprintf(sheet, "refused %u %lu\n", number, now.refused[number]);
}

static void take_input(char *rest)
{
    memset(&now, 0, sizeof now);
    take_view(&view, &rest);
    for (char *path; *(path = take_next(&rest)) != 0;)
        count_document(path);
}

/* The bytes of a file in a folder. */
static char *bytes_in(const char *folder, const char *name)
{
    char *path;
    if (asprintf(&path, "%s/%s", folder, name) < 0)
        abort();
    char *bytes = bytes_of(path);
    free(path);
    return bytes;
}

static void check_sheet(const char *folder)
{
    char *input = bytes_in(folder, "input"), *printed = bytes_in(folder, "printed"), *sheet = NULL;
    size_t length;
    take_input(input);
    FILE *memory = open_memstream(&sheet, &length);
    write_sheet(memory);
    fclose(memory);
    tally(strcmp(sheet, printed) == 0, "%s, SEED=%llu: libxml2 counts\n%sand the program\n%s", case_now(),
          (unsigned long long)group_seed(), sheet, printed);
    free(sheet);
    free(printed);
    free(input);
}

static void take_line(char letter, char *rest)
{
    if (letter == 'D')
        check_sheet(rest);
    else
        no_such_line();
}

int main(void)
{
    return check_cases("sheet", take_line);
}
