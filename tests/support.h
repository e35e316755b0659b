/* What every test program shares: random numbers, lent memory with guards, and counting. */
#ifndef SUPPORT_H
#define SUPPORT_H

#include <stdarg.h>
#include <stdbool.h>
#include <stddef.h>
#include <stdint.h>

/* A refusal as the C interface answers it. */
#define REFUSED(number, place) (((uint64_t)(number) << 32) | (uint64_t)(place))

/* A source of random numbers that a seed decides. */
struct dice {
    uint64_t state;
};

uint64_t roll(struct dice *dice);
size_t below(struct dice *dice, size_t bound);
size_t between(struct dice *dice, size_t least, size_t most);
bool chance(struct dice *dice, unsigned percent);

/* Starts a group: takes SEED, CASES and CASE from the environment. Traps end it as a failure. */
void group_start(const char *name);

/* Counts one test and says what failed. */
void tally(bool passed, const char *format, ...) __attribute__((format(printf, 2, 3)));

/* Counts one test: a call answered as expected. */
void answer_is(const char *what, uint64_t answer, uint64_t expected);

/* Tries a random test so many times (times CASES percent), each with its own dice. */
void try_cases(const char *what, unsigned count, bool (*test)(struct dice *dice));

/* Names what is being tried, for the message of a trap. */
void now_trying(const char *what);

/* Prints a line under the case that failed; answers false, so that a test can end with it. */
bool complain(const char *format, ...) __attribute__((format(printf, 1, 2)));

/* Shows memory under a failed case. */
void show_text(const char *what, const uint8_t *bytes, size_t count);
void show_bytes(const char *what, const uint8_t *bytes, size_t count);
void show_words(const char *what, const uint16_t *words, size_t count);
void show_items(const char *what, const uint32_t *items, size_t count);

/* Prints the group's line and gives the exit status. */
int group_end(void);

/* The group's seed, and the number of the case being tried. */
uint64_t group_seed(void);
uint64_t group_case(void);

/*
 * Lent memory: it ends at a page that cannot be touched and begins after guard bytes.
 * A slot holds one piece at a time.
 */
enum { SLOTS = 16, SLOT_BYTES = 1 << 26, GUARD_BYTES = 64 };

void *lend(unsigned slot, size_t bytes);
bool guards_whole(void);

/* Are so many bytes all of one value? */
bool all_bytes(const void *memory, size_t bytes, uint8_t value);

/* Fills memory with random bytes. */
void scatter(struct dice *dice, void *memory, size_t bytes);

#endif
