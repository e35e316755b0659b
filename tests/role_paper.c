/*
 * Roles as 02, 2026-13, says them, in plain C: the union of a role's views is their texts joined by `|`, read as one
 * query. No items are put together here.
 */
#include "names.h"
#include "paper.h"
#include "support.h"

#include <string.h>

enum { BITS = 32 };

/* The lines of the views' text. */
struct lines {
    const uint8_t *start[HALYARDFIG_VIEWS];
    size_t length[HALYARDFIG_VIEWS];
    size_t count;
};

/* Takes the views apart; false where there are too many, or no LF ends the last. */
static bool take_views(struct lines *lines, const uint8_t *views, size_t views_len)
{
    lines->count = 0;
    for (size_t i = 0, begin = 0; i < views_len; i++) {
        if (views[i] != '\n')
            continue;
        if (lines->count == HALYARDFIG_VIEWS)
            return false;
        lines->start[lines->count] = views + begin;
        lines->length[lines->count++] = i - begin;
        begin = i + 1;
    }
    return views_len == 0 || views[views_len - 1] == '\n';
}

/* May a role of this mask see anything, and only what there is? */
static bool good_mask(uint32_t mask, size_t views)
{
    for (size_t v = views; v < BITS; v++)
        if ((mask >> v & 1) == 1)
            return false;
    return mask != 0;
}

/* Joins the role's views by `|`. A view has an LF after it in the lent text, so they are never too long. */
static size_t join_views(const struct lines *lines, uint32_t mask, uint8_t *joined)
{
    size_t length = 0;
    for (size_t v = 0; v < lines->count; v++) {
        if ((mask >> v & 1) == 0)
            continue;
        if (length > 0)
            joined[length++] = '|';
        memcpy(joined + length, lines->start[v], lines->length[v]);
        length += lines->length[v];
    }
    return length;
}

uint64_t model_for_role(const uint8_t *views, size_t views_len, const uint8_t *names, size_t names_len,
                        const halyardfig_role *roles, size_t roles_len, uint32_t role, const uint8_t *text,
                        size_t text_len, uint32_t *out, size_t out_len)
{
    static struct lines lines;
    static struct names taken;
    static uint8_t joined[HALYARDFIG_TEXT_BYTES];
    static uint32_t outer[HALYARDFIG_QUERY_ITEMS], inner[HALYARDFIG_QUERY_ITEMS];
    if (views_len > HALYARDFIG_TEXT_BYTES || names_len > HALYARDFIG_NAMES_BYTES || text_len > HALYARDFIG_TEXT_BYTES ||
        roles_len > HALYARDFIG_ROLES || !take_views(&lines, views, views_len))
        return REFUSED(1, 0);
    uint64_t refusal = take_names(&taken, names, names_len);
    if (refusal != 0)
        return refusal;
    if (role >= roles_len)
        return REFUSED(15, role);
    if (!good_mask(roles[role].views, lines.count))
        return REFUSED(16, role);
    for (size_t v = 0; v < lines.count; v++)
        if (model_read(lines.start[v], lines.length[v], 1, names, names_len, inner, HALYARDFIG_QUERY_ITEMS) >> 32 != 0)
            return REFUSED(17, v);
    uint64_t asked = model_read(text, text_len, 1, names, names_len, outer, HALYARDFIG_QUERY_ITEMS);
    if (asked >> 32 != 0)
        return asked;
    uint64_t seen = model_read(joined, join_views(&lines, roles[role].views, joined), 1, names, names_len, inner,
                               HALYARDFIG_QUERY_ITEMS);
    if (seen >> 32 != 0)
        return seen;
    return model_compose(outer, asked, inner, seen, out, out_len);
}
