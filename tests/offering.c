/* Memory offered to one call, with a judgement of what the call did to it. */
#include "offering.h"

#include "halyardfig.h"

#include <stdlib.h>
#include <string.h>

enum { FILL = 0x5A };

/* Memory lent to one call, and how it was before. */
static struct {
    uint8_t *start;
    uint8_t *before;
    size_t bytes;
} pieces[OFFERS];
static unsigned piece_count;

void *offer(const void *from, size_t bytes)
{
    uint8_t *start = lend(piece_count, bytes);
    uint8_t *before = realloc(pieces[piece_count].before, bytes + 1);
    if (before == NULL)
        abort();
    if (from == NULL)
        memset(start, FILL, bytes);
    else
        memcpy(start, from, bytes);
    memcpy(before, start, bytes);
    pieces[piece_count].start = start;
    pieces[piece_count].before = before;
    pieces[piece_count].bytes = bytes;
    piece_count++;
    return start;
}

/* Is a piece as it was, from some byte on? */
static bool stands(unsigned piece, size_t from)
{
    return memcmp(pieces[piece].start + from, pieces[piece].before + from, pieces[piece].bytes - from) == 0;
}

void judge_offered(const char *what, uint64_t answer, uint64_t expected, const size_t *written)
{
    bool untouched = guards_whole();
    for (unsigned i = 0; i < piece_count; i++)
        untouched = untouched && stands(i, halyardfig_refused(answer) == 0 ? written[i] : 0);
    tally(answer == expected && untouched, "%s: answer %u with %u, expected %u with %u%s", what,
          halyardfig_refused(answer), halyardfig_place(answer), halyardfig_refused(expected),
          halyardfig_place(expected), untouched ? "" : "; wrote where it may not");
    piece_count = 0;
}
