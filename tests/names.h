/* The name list as docs/SCOPE.md has it, for the models. */
#ifndef NAMES_H
#define NAMES_H

#include "halyardfig.h"

#include <stdbool.h>

struct names {
    const uint8_t *start[HALYARDFIG_NAMES];
    size_t length[HALYARDFIG_NAMES];
    size_t count;
};

bool starts_name(uint8_t byte);
bool continues_name(uint8_t byte);

/* The number of a name; the number of all names where it is none of them. */
size_t number_named(const struct names *names, const uint8_t *bytes, size_t length);

/* Takes the list apart; answers 0 or the refusal. */
uint64_t take_names(struct names *names, const uint8_t *list, size_t list_len);

#endif
