/* Reads cases from standard input and holds them to another engine's XPath under the subtree rule. */
#include "checking.h"
#include "other_engine.h"

#include <stdio.h>
#include <stdlib.h>
#include <string.h>

enum { NODES = HALYARDFIG_NODES };

static struct case_document now;

static bool is_above_or_same(size_t high, size_t low)
{
    while (low != high && low != 0)
        low = now.parent[low];
    return low == high;
}

/* Leaves marked what is selected, above it or below it. */
static void keep_subtrees(const uint8_t *selected)
{
    for (size_t i = 0; i < now.nodes; i++) {
        bool stays = false;
        for (size_t j = 0; j < now.nodes && !stays; j++)
            stays = selected[j] && (is_above_or_same(i, j) || is_above_or_same(j, i));
        now.marks[i] = now.marks[i] && stays;
    }
}

/* Runs a query text inside the marks. */
static void run_query(const char *text)
{
    static uint8_t selected[NODES];
    if (now.marks[0] == 0)
        return;
    memset(selected, 0, sizeof selected);
    if (!other_selects(&now, text, selected))
        tally(false, "%s does not take %s", other_engine, text);
    keep_subtrees(selected);
}

static void compare(const char *expected)
{
    char found[NODES + 1];
    for (size_t i = 0; i < now.nodes; i++)
        found[i] = (char)('0' + now.marks[i]);
    found[now.nodes] = 0;
    tally(strcmp(found, expected) == 0, "%s, SEED=%llu: %s keeps %s, the library %s\n%s", case_now(),
          (unsigned long long)group_seed(), other_engine, found, expected, case_lines());
}

static void take_kinds(char *words)
{
    static case_column kind;
    now.nodes = take_column(words, kind);
    for (size_t i = 0; i < now.nodes; i++)
        now.name[i] = kind[i] < HALYARDFIG_KIND_ELEMENT ? NULL : name_of(kind[i] - HALYARDFIG_KIND_ELEMENT);
}

/* Turns \t, \n and \r back into the bytes they stand for. */
static void unescape(char *text)
{
    char *to = text;
    for (const char *from = text; *from != 0; from++)
        if (*from == '\\')
            *to++ = *++from == 'n' ? '\n' : *from == 'r' ? '\r' : '\t';
        else
            *to++ = *from;
    *to = 0;
}

static bool in_name(char byte)
{
    return (byte >= 'a' && byte <= 'z') || (byte >= 'A' && byte <= 'Z') || (byte >= '0' && byte <= '9') ||
           byte == '_' || byte == '-' || byte == '.';
}

static size_t token_length(const char *text)
{
    size_t length = 1;
    if (in_name(text[0]) && text[0] != '.')
        while (in_name(text[length]))
            length++;
    else if (text[0] == text[1] && strchr("/.:", text[0]) != NULL)
        length = 2;
    return length;
}

static bool token_is(const char *token, size_t length, const char *other)
{
    return length == strlen(other) && memcmp(token, other, length) == 0;
}

/* A text of XPath 2.0 in XPath 1.0: `.` and `..` written out, so that predicates may follow, and outside brackets `|`
   for the word `union` where an operand has just ended. */
static char *in_first_version(const char *text)
{
    char *made = calloc(strlen(text) + 1, sizeof "parent::node()"), *to = made;
    unsigned open = 0;
    bool operand = false;
    for (size_t length; *text != 0; text += length) {
        length = token_length(text);
        if (token_is(text, length, "."))
            to += sprintf(to, "self::node()");
        else if (token_is(text, length, ".."))
            to += sprintf(to, "parent::node()");
        else if (operand && open == 0 && token_is(text, length, "union"))
            to += sprintf(to, "|");
        else
            to += sprintf(to, "%.*s", (int)length, text);
        if (strchr(" \t\n\r", text[0]) != NULL)
            continue;
        open += text[0] == '[' || text[0] == '(';
        open -= text[0] == ']' || text[0] == ')';
        operand = strchr("/:|[(", text[0]) == NULL && !(operand && open == 0 && token_is(text, length, "union"));
    }
    return made;
}

static void take_line(char letter, char *rest)
{
    switch (letter) {
    case 'P':
        now.nodes = take_column(rest, now.parent);
        return;
    case 'K':
        take_kinds(rest);
        return;
    case 'G':
        for (size_t i = 0; i < now.nodes; i++)
            now.marks[i] = rest[i] == '1';
        return;
    case 'Q':
        unescape(rest);
        run_query(rest);
        return;
    case 'V':
        unescape(rest);
        char *first = in_first_version(rest);
        run_query(first);
        free(first);
        return;
    case 'E':
        compare(rest);
        return;
    default:
        no_such_line();
    }
}

int main(void)
{
    return check_cases("engine", take_line);
}
