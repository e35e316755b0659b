/* Random numbers, lent memory with guards, and counting. */
#define _GNU_SOURCE
#include "support.h"

#include <signal.h>
#include <stdio.h>
#include <stdlib.h>
#include <string.h>
#include <sys/mman.h>
#include <unistd.h>

enum { GUARD_VALUE = 0xA5, FAILURES_SHOWN = 5, TALLIES_SHOWN = 40, SHOWN_MOST = 5000, FIXED_SEED = 20260701 };

static struct {
    const char *name;
    const char *what;
    uint64_t seed;
    unsigned percent;
    bool one_case;
    uint64_t chosen_case;
    uint64_t current_case;
    uint64_t passed;
    uint64_t failed;
    uint64_t failed_before;
} group;

static struct {
    uint8_t *memory;
    uint8_t *start;
} slots[SLOTS];

uint64_t roll(struct dice *dice)
{
    uint64_t mixed = dice->state += 0x9E3779B97F4A7C15u;
    mixed = (mixed ^ (mixed >> 30)) * 0xBF58476D1CE4E5B9u;
    mixed = (mixed ^ (mixed >> 27)) * 0x94D049BB133111EBu;
    return mixed ^ (mixed >> 31);
}

size_t below(struct dice *dice, size_t bound)
{
    return bound == 0 ? 0 : roll(dice) % bound;
}

size_t between(struct dice *dice, size_t least, size_t most)
{
    return least + below(dice, most - least + 1);
}

bool chance(struct dice *dice, unsigned percent)
{
    return below(dice, 100) < percent;
}

void scatter(struct dice *dice, void *memory, size_t bytes)
{
    uint8_t *byte = memory;
    for (size_t i = 0; i < bytes; i++)
        byte[i] = (uint8_t)roll(dice);
}

static void say_case(void)
{
    printf("FAILED %s: %s, SEED=%llu CASE=%llu\n", group.name, group.what ? group.what : "",
           (unsigned long long)group.seed, (unsigned long long)group.current_case);
}

/* A trap inside a call is a failed test; the group ends with it. */
static void trapped(int number)
{
    say_case();
    printf("signal %d\n", number);
    printf("%s: %llu passed, %llu failed\n", group.name, (unsigned long long)group.passed,
           (unsigned long long)group.failed + 1);
    fflush(stdout);
    _exit(1);
}

static void catch_traps(void)
{
    static uint8_t own_stack[1 << 16];
    stack_t stack = {.ss_sp = own_stack, .ss_size = sizeof own_stack};
    sigaltstack(&stack, NULL);
    struct sigaction action = {.sa_handler = trapped, .sa_flags = SA_ONSTACK};
    const int signals[] = {SIGSEGV, SIGBUS, SIGILL, SIGFPE, SIGABRT, SIGTRAP, SIGALRM};
    for (size_t i = 0; i < sizeof signals / sizeof signals[0]; i++)
        sigaction(signals[i], &action, NULL);
}

static uint64_t seed_asked(void)
{
    const char *asked = getenv("SEED");
    return asked == NULL || *asked == 0 ? FIXED_SEED : strtoull(asked, NULL, 10);
}

void group_start(const char *name)
{
    const char *cases = getenv("CASES");
    const char *one = getenv("CASE");
    group.name = name;
    group.seed = seed_asked();
    group.percent = cases != NULL && *cases != 0 ? (unsigned)strtoul(cases, NULL, 10) : 100;
    group.one_case = one != NULL && *one != 0;
    group.chosen_case = group.one_case ? strtoull(one, NULL, 10) : 0;
    setvbuf(stdout, NULL, _IOLBF, 0);
    catch_traps();
}

uint64_t group_seed(void)
{
    return group.seed;
}

uint64_t group_case(void)
{
    return group.current_case;
}

static void count_one(bool passed)
{
    if (passed)
        group.passed++;
    else
        group.failed++;
}

void tally(bool passed, const char *format, ...)
{
    count_one(passed);
    if (passed || group.failed > TALLIES_SHOWN)
        return;
    va_list arguments;
    va_start(arguments, format);
    printf("FAILED %s: ", group.name);
    vprintf(format, arguments);
    printf("\n");
    va_end(arguments);
}

/* Only the first failures of each test are shown. */
static bool shows(void)
{
    return group.failed - group.failed_before < FAILURES_SHOWN;
}

void now_trying(const char *what)
{
    group.what = what;
}

void answer_is(const char *what, uint64_t answer, uint64_t expected)
{
    tally(answer == expected, "%s: answer %u with %u, expected %u with %u", what, (unsigned)(answer >> 32),
          (unsigned)answer, (unsigned)(expected >> 32), (unsigned)expected);
}

bool complain(const char *format, ...)
{
    if (!shows())
        return false;
    va_list arguments;
    va_start(arguments, format);
    say_case();
    printf("  ");
    vprintf(format, arguments);
    printf("\n");
    va_end(arguments);
    return false;
}

void try_cases(const char *what, unsigned count, bool (*test)(struct dice *dice))
{
    uint64_t total = ((uint64_t)count * group.percent + 99) / 100;
    uint64_t first = group.one_case ? group.chosen_case : 0;
    uint64_t end = group.one_case ? group.chosen_case + 1 : total;
    group.what = what;
    group.failed_before = group.failed;
    for (uint64_t i = first; i < end; i++) {
        struct dice dice = {group.seed ^ (i * 0xD1342543DE82EF95u)};
        for (const char *letter = what; *letter != 0; letter++)
            dice.state = roll(&dice) ^ (uint8_t)*letter;
        group.current_case = i;
        bool passed = test(&dice);
        count_one(passed);
    }
    group.what = NULL;
}

void show_text(const char *what, const uint8_t *bytes, size_t count)
{
    if (!shows())
        return;
    printf("  %s (%zu bytes): ", what, count);
    for (size_t i = 0; i < count && i < SHOWN_MOST; i++)
        if (bytes[i] >= 32 && bytes[i] < 127 && bytes[i] != '\\')
            putchar(bytes[i]);
        else
            printf("\\x%02x", bytes[i]);
    printf("\n");
}

void show_bytes(const char *what, const uint8_t *bytes, size_t count)
{
    if (!shows())
        return;
    printf("  %s (%zu): ", what, count);
    for (size_t i = 0; i < count && i < SHOWN_MOST; i++)
        printf(bytes[i] < 10 ? "%u" : "(%u)", bytes[i]);
    printf("\n");
}

void show_words(const char *what, const uint16_t *words, size_t count)
{
    if (!shows())
        return;
    printf("  %s (%zu):", what, count);
    for (size_t i = 0; i < count && i < SHOWN_MOST; i++)
        printf(" %u", words[i]);
    printf("\n");
}

void show_items(const char *what, const uint32_t *items, size_t count)
{
    if (!shows())
        return;
    printf("  %s (%zu):", what, count);
    for (size_t i = 0; i < count && i < SHOWN_MOST; i++)
        printf(" 0x%x", items[i]);
    printf("\n");
}

int group_end(void)
{
    printf("%s: %llu passed, %llu failed\n", group.name, (unsigned long long)group.passed,
           (unsigned long long)group.failed);
    return group.failed == 0 ? 0 : 1;
}

/* A slot's memory, with a page before and after it that cannot be touched. */
static uint8_t *slot_memory(unsigned slot)
{
    if (slots[slot].memory != NULL)
        return slots[slot].memory;
    size_t page = (size_t)sysconf(_SC_PAGESIZE);
    uint8_t *whole = mmap(NULL, SLOT_BYTES + 2 * page, PROT_NONE, MAP_PRIVATE | MAP_ANONYMOUS | MAP_NORESERVE, -1, 0);
    if (whole == MAP_FAILED || mprotect(whole + page, SLOT_BYTES, PROT_READ | PROT_WRITE) != 0)
        abort();
    slots[slot].memory = whole + page;
    return slots[slot].memory;
}

void *lend(unsigned slot, size_t bytes)
{
    if (slot >= SLOTS || bytes > SLOT_BYTES - GUARD_BYTES)
        abort();
    uint8_t *start = slot_memory(slot) + SLOT_BYTES - bytes;
    memset(start - GUARD_BYTES, GUARD_VALUE, GUARD_BYTES);
    slots[slot].start = start;
    return start;
}

bool all_bytes(const void *memory, size_t bytes, uint8_t value)
{
    const uint8_t *byte = memory;
    for (size_t i = 0; i < bytes; i++)
        if (byte[i] != value)
            return false;
    return true;
}

bool guards_whole(void)
{
    for (unsigned slot = 0; slot < SLOTS; slot++)
        if (slots[slot].start != NULL && !all_bytes(slots[slot].start - GUARD_BYTES, GUARD_BYTES, GUARD_VALUE))
            return false;
    return true;
}
