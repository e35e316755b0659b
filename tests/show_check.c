/* Reads cases from standard input and holds what was printed of each input, in a file beside it, to what libxml2 keeps
   of the text: the same elements with the same bytes of text between their tags, nothing, or the number of a refusal;
   the status stands behind what was printed. */
#define _GNU_SOURCE
#include "view_checking.h"

#include <stdio.h>
#include <stdlib.h>
#include <string.h>

static struct view view;
static unsigned shown, nothing, refused;

/* Writes a text behind a byte and answers its last one. A row of LF is written as one: a CR at the end of a kept text
   and an LF at the start of the next are two of them in the tree of the whole, and one where nothing is between. */
static xmlChar write_text(const xmlChar *text, xmlChar before, FILE *out)
{
    for (; *text != 0; before = *text++)
        if (*text != '\n' || before != '\n')
            fprintf(out, *text == '<' || *text == '&' ? "&%d;" : "%c", *text);
    return before;
}

/* Writes the nodes below one, all or those that are kept, in one form: texts side by side are then one. */
static void write_nodes(const xmlNode *above, bool all, FILE *out)
{
    xmlChar before = 0;
    for (const xmlNode *node = above->children; node != NULL; node = node->next) {
        if (!all && !is_kept(node))
            continue;
        if (node->type == XML_TEXT_NODE) {
            before = write_text(node->content, before, out);
        } else {
            fprintf(out, "<%s>", node->name);
            write_nodes(node, all, out);
            fprintf(out, "</%s>", node->name);
            before = 0;
        }
    }
}

static char *form_of(xmlDocPtr document, bool all)
{
    char *form = NULL;
    size_t length;
    FILE *memory = open_memstream(&form, &length);
    if (document != NULL)
        write_nodes((xmlNodePtr)document, all, memory);
    fclose(memory);
    return form;
}

/* What was printed is one element and an LF, and the element has just what is kept. */
static bool is_file(const char *printed, const char *kept)
{
    size_t length = strlen(printed);
    if (length < 2 || printed[0] != '<' || printed[length - 2] != '>' || printed[length - 1] != '\n')
        return false;
    xmlDocPtr document = parse_xml((const uint8_t *)printed, length - 1);
    char *form = form_of(document, true);
    bool same = document != NULL && strcmp(form, kept) == 0;
    free(form);
    xmlFreeDoc(document);
    return same;
}

static bool is_refusal(const char *printed, unsigned number)
{
    unsigned said, place;
    int end = 0;
    return sscanf(printed, "refused text %u %u\n%n", &said, &place, &end) == 2 && said == number && printed[end] == 0;
}

static bool is_right(const char *text, const char *printed, char status)
{
    xmlDocPtr document = parse_xml((const uint8_t *)text, strlen(text));
    unsigned refusal = refusal_of(&view, document);
    bool right = false;
    if (refusal != 0) {
        refused++;
        right = status == '1' && is_refusal(printed, refusal);
    } else if (keep_nodes(&view, document)) {
        char *kept = form_of(document, false);
        *(*kept == 0 ? &nothing : &shown) += 1;
        right = status == '0' && (*kept == 0 ? *printed == 0 : is_file(printed, kept));
        free(kept);
    }
    xmlFreeDoc(document);
    return right;
}

static void check_input(const char *path)
{
    char *beside, *input = bytes_of(path), *text = input;
    if (asprintf(&beside, "%s.printed", path) < 0)
        abort();
    char *printed = bytes_of(beside);
    size_t length = strlen(printed);
    char status = length == 0 ? 0 : printed[length - 1];
    printed[length == 0 ? 0 : length - 1] = 0;
    take_view(&view, &text);
    tally(is_right(text, printed, status), "%s, SEED=%llu: %s, status %c, of the text\n%s\nshown\n%s", case_now(),
          (unsigned long long)group_seed(), view.xpath, status, text, printed);
    free(printed);
    free(beside);
    free(input);
}

static void take_line(char letter, char *rest)
{
    if (letter == 'D')
        check_input(rest);
    else
        no_such_line();
}

int main(void)
{
    int status = check_cases("show", take_line);
    return shown != 0 && nothing != 0 && refused != 0 ? status : 1;
}
