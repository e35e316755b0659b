/* The name list as docs/SCOPE.md has it, for the models. */
#include "names.h"

#include "support.h"

#include <string.h>

bool starts_name(uint8_t byte)
{
    return (byte >= 'a' && byte <= 'z') || (byte >= 'A' && byte <= 'Z') || byte == '_';
}

bool continues_name(uint8_t byte)
{
    return starts_name(byte) || (byte >= '0' && byte <= '9') || byte == '.' || byte == '-';
}

static bool is_name(const uint8_t *bytes, size_t length)
{
    if (length == 0 || !starts_name(bytes[0]))
        return false;
    for (size_t i = 1; i < length; i++)
        if (!continues_name(bytes[i]))
            return false;
    return true;
}

size_t number_named(const struct names *names, const uint8_t *bytes, size_t length)
{
    size_t v = 0;
    while (v < names->count && (names->length[v] != length || memcmp(names->start[v], bytes, length) != 0))
        v++;
    return v;
}

uint64_t take_names(struct names *names, const uint8_t *list, size_t list_len)
{
    names->count = 0;
    for (size_t at = 0; at < list_len;) {
        size_t length = 0;
        while (at + length < list_len && list[at + length] != '\n')
            length++;
        bool ended = at + length < list_len;
        bool good = ended && is_name(list + at, length) && length <= HALYARDFIG_NAME_BYTES &&
                    names->count < HALYARDFIG_NAMES && number_named(names, list + at, length) == names->count;
        if (!good)
            return REFUSED(2, at);
        names->start[names->count] = list + at;
        names->length[names->count++] = length;
        at += length + 1;
    }
    return 0;
}
