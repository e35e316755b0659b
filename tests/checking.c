/* What the programs share that hold cases of the library to libxml2. */
#define _GNU_SOURCE
#include "checking.h"

#include <libxml/parser.h>
#include <libxml/xmlerror.h>
#include <stdio.h>
#include <stdlib.h>
#include <string.h>

static struct {
    char *what;
    char *names[HALYARDFIG_NAMES];
    char shown[1 << 16];
} now;

const char *case_now(void)
{
    return now.what;
}

const char *case_lines(void)
{
    return now.shown;
}

static void take_names(char *words)
{
    size_t count = 0;
    for (char *word = strtok(words, " "); word != NULL && count < HALYARDFIG_NAMES; word = strtok(NULL, " ")) {
        free(now.names[count]);
        now.names[count++] = strdup(word);
    }
}

const char *name_of(unsigned number)
{
    return now.names[number];
}

size_t take_column(char *words, case_column column)
{
    size_t nodes = 0;
    for (char *word = strtok(words, " "); word != NULL && nodes < HALYARDFIG_NODES; word = strtok(NULL, " "))
        column[nodes++] = (unsigned)strtoul(word, NULL, 10);
    return nodes;
}

static unsigned digit_of(char digit)
{
    return (unsigned)(digit <= '9' ? digit - '0' : digit - 'a' + 10);
}

size_t take_bytes(const char *digits, uint8_t *bytes)
{
    size_t length = 0;
    for (; digits[0] != 0; digits += 2)
        bytes[length++] = (uint8_t)(digit_of(digits[0]) << 4 | digit_of(digits[1]));
    return length;
}

bool take_xml_line(struct case_xml *xml, char letter, char *rest)
{
    switch (letter) {
    case 'T':
        xml->length = take_bytes(rest, xml->text);
        return true;
    case 'P':
        xml->nodes = take_column(rest, xml->parent);
        return true;
    case 'K':
        take_column(rest, xml->kind);
        return true;
    case 'B':
        take_column(rest, xml->begin);
        return true;
    case 'E':
        take_column(rest, xml->end);
        return true;
    default:
        return false;
    }
}

void judge_case(bool passed, const char *wrong)
{
    tally(passed, "%s, SEED=%llu: %s\n%s", now.what, (unsigned long long)group_seed(), wrong, now.shown);
}

xmlDocPtr parse_xml(const uint8_t *text, size_t length)
{
    return xmlReadMemory((const char *)text, (int)length, NULL, "UTF-8",
                         XML_PARSE_HUGE | XML_PARSE_NOERROR | XML_PARSE_NOWARNING | XML_PARSE_NONET);
}

xmlNodePtr next_node(xmlNodePtr node)
{
    if (node->children != NULL)
        return node->children;
    while (node != NULL && node->next == NULL)
        node = node->parent;
    return node == NULL ? NULL : node->next;
}

/* Is this reference, or word, the next of the data? */
static bool is_next(const uint8_t *data, size_t left, const char *word)
{
    return strlen(word) <= left && memcmp(data, word, strlen(word)) == 0;
}

void write_plain(const uint8_t *data, size_t length, char *plain)
{
    static const struct {
        const char *reference;
        char byte;
    } references[] = {{"&lt;", '<'}, {"&gt;", '>'}, {"&amp;", '&'}, {"&apos;", '\''}, {"&quot;", '"'}};
    for (size_t at = 0; at < length; at++, plain++) {
        *plain = (char)(data[at] == '\r' ? '\n' : data[at]);
        if (is_next(data + at, length - at, "\r\n"))
            at++;
        for (size_t i = 0; data[at] == '&' && i < sizeof references / sizeof references[0]; i++)
            if (is_next(data + at, length - at, references[i].reference)) {
                *plain = references[i].byte;
                at += strlen(references[i].reference) - 1;
            }
    }
    *plain = 0;
}

void no_such_line(void)
{
    tally(false, "no case has the last of these lines:\n%s", now.shown);
}

static void ignore_error(void *context, const char *message, ...)
{
    (void)context;
    (void)message;
}

static void remember(const char *line)
{
    size_t used = strlen(now.shown);
    snprintf(now.shown + used, sizeof now.shown - used, "  %s\n", line);
}

static void start_case(const char *what)
{
    free(now.what);
    now.what = strdup(what);
    now.shown[0] = 0;
}

/* Does the line count the group's cases, none of them failed? */
static bool counts_cases(const char *group, const char *line)
{
    size_t length = strlen(group);
    return strncmp(line, group, length) == 0 && strncmp(line + length, ": ", 2) == 0 &&
           strstr(line, " 0 failed") != NULL;
}

int check_cases(const char *group, void (*take_line)(char letter, char *rest))
{
    char *line = NULL;
    size_t room = 0;
    bool ended = false;
    group_start(group);
    xmlSetGenericErrorFunc(NULL, ignore_error);
    for (ssize_t length; (length = getline(&line, &room, stdin)) > 0;) {
        line[length - 1] = 0;
        char *rest = length > 3 ? line + 2 : line + length - 1;
        ended = counts_cases(group, line);
        if (line[0] == 'C')
            start_case(rest);
        remember(line);
        if (line[0] == 'N')
            take_names(rest);
        else if (line[0] != 'C' && !ended)
            take_line(line[0], rest);
    }
    free(line);
    if (!ended)
        tally(false, "the cases do not end as they should");
    return group_end();
}
