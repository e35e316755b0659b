/* 02, 2026-02 in plain C: the nodes are written from the parents down, with the names of the list, and each `>` is held
 * to the bytes that are written before it. */
#include "halyardfig.h"
#include "names.h"
#include "paper.h"
#include "support.h"

#include <string.h>

/* No text and no tag becomes twice as long. */
enum { WRITTEN_ROOM = 2 * HALYARDFIG_TEXT_BYTES };

/* What is lent, and what is written. */
static struct {
    const uint8_t *text;
    const uint16_t *parent, *kind, *begin, *end;
    const uint8_t *marks;
    size_t nodes;
    struct names names;
    uint8_t bytes[WRITTEN_ROOM];
    size_t length;
} file;

static void put(const char *bytes, size_t count)
{
    memcpy(file.bytes + file.length, bytes, count);
    file.length += count;
}

static void put_tag(const char *opens, size_t node)
{
    size_t v = file.kind[node] - HALYARDFIG_KIND_ELEMENT;
    put(opens, strlen(opens));
    put((const char *)file.names.start[v], file.names.length[v]);
    put(">", 1);
}

static bool ends_marks(const char *byte)
{
    return *byte == '>' && file.length >= 2 && memcmp(file.bytes + file.length - 2, "]]", 2) == 0;
}

static void put_text(size_t node)
{
    for (size_t at = file.begin[node]; at < file.end[node]; at++) {
        const char *byte = (const char *)file.text + at;
        if (ends_marks(byte))
            put("&gt;", 4);
        else
            put(byte, 1);
    }
}

/* Writes all that is marked below a node; answers the first node that is not below it. */
static size_t put_below(size_t node)
{
    size_t next = node + 1;
    while (next < file.nodes && file.parent[next] == node) {
        size_t child = next;
        bool marked = file.marks[child] == 1, element = file.kind[child] >= HALYARDFIG_KIND_ELEMENT;
        if (marked && element)
            put_tag("<", child);
        if (marked && !element)
            put_text(child);
        next = put_below(child);
        if (marked && element)
            put_tag("</", child);
    }
    return next;
}

static bool is_element_marked(void)
{
    for (size_t i = 0; i < file.nodes; i++)
        if (file.marks[i] == 1 && file.kind[i] >= HALYARDFIG_KIND_ELEMENT)
            return true;
    return false;
}

/* Reads the text into columns of these lengths: are they the lent ones? */
static bool reads_as_lent(size_t text_len, const uint8_t *names, size_t names_len)
{
    static uint16_t parent[HALYARDFIG_NODES], kind[HALYARDFIG_NODES], begin[HALYARDFIG_NODES], end[HALYARDFIG_NODES];
    size_t n = file.nodes, bytes = n * sizeof *parent;
    return model_read_xml(file.text, text_len, names, names_len, parent, n, kind, n, begin, n, end, n) == n &&
           memcmp(parent, file.parent, bytes) == 0 && memcmp(kind, file.kind, bytes) == 0 &&
           memcmp(begin, file.begin, bytes) == 0 && memcmp(end, file.end, bytes) == 0;
}

uint64_t model_write_xml(const uint8_t *text, size_t text_len, const uint8_t *names, size_t names_len,
                         const uint16_t *parent, size_t parent_len, const uint16_t *kind, size_t kind_len,
                         const uint16_t *begin, size_t begin_len, const uint16_t *end, size_t end_len,
                         const uint8_t *marks, size_t marks_len, uint8_t *out, size_t out_len)
{
    static uint16_t parents[HALYARDFIG_NODES], kinds[HALYARDFIG_NODES];
    size_t n = parent_len;
    if (text_len > HALYARDFIG_TEXT_BYTES || names_len > HALYARDFIG_NAMES_BYTES || n > HALYARDFIG_NODES ||
        kind_len != n || begin_len != n || end_len != n || marks_len != n)
        return REFUSED(1, 0);
    uint64_t refusal = take_names(&file.names, names, names_len);
    if (refusal != 0)
        return refusal;
    uint64_t extracted = model_extract(parent, n, kind, n, marks, n, parents, n, kinds, n);
    if (halyardfig_refused(extracted) != 0)
        return extracted;
    file.text = text;
    file.parent = parent;
    file.kind = kind;
    file.begin = begin;
    file.end = end;
    file.marks = marks;
    file.nodes = n;
    file.length = 0;
    if (!is_element_marked())
        return REFUSED(HALYARDFIG_REFUSED_NO_ELEMENT, 0);
    if (!reads_as_lent(text_len, names, names_len))
        return REFUSED(HALYARDFIG_REFUSED_COLUMNS, 0);
    put_below(0);
    if (file.length > out_len)
        return REFUSED(HALYARDFIG_REFUSED_ROOM, file.length);
    memcpy(out, file.bytes, file.length);
    return file.length;
}
