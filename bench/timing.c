/* Rounds in which each piece of work has its turn, so that what disturbs the machine disturbs all of them. */
#define _GNU_SOURCE
#include "timing.h"

#include <time.h>

/* A turn lasts about TURN_MICROS; work that takes longer than SLOW_MICROS is done no second time. */
enum { ROUNDS = 11, TURN_MICROS = 20000, SLOW_MICROS = 1000000, GOES_LIMIT = 100000 };

static double now_micros(void)
{
    struct timespec now;
    clock_gettime(CLOCK_PROCESS_CPUTIME_ID, &now);
    return (double)now.tv_sec * 1e6 + (double)now.tv_nsec / 1e3;
}

static double time_turn(const struct work *work, size_t goes)
{
    double start = now_micros();
    for (size_t i = 0; i < goes; i++)
        work->once(work->with);
    return (now_micros() - start) / (double)goes;
}

/* How many goes fill a turn. */
static size_t goes_of(double micros)
{
    double goes = TURN_MICROS / (micros + 0.01);
    return goes < 1 ? 1 : goes > GOES_LIMIT ? GOES_LIMIT : (size_t)goes;
}

void time_first(const struct work *works, size_t count, double *micros)
{
    for (size_t i = 0; i < count; i++)
        micros[i] = time_turn(&works[i], 1);
}

void time_side_by_side(const struct work *works, size_t count, double *micros)
{
    for (size_t round = 0; round < ROUNDS; round++)
        for (size_t i = 0; i < count; i++) {
            if (micros[i] > SLOW_MICROS)
                continue;
            double turn = time_turn(&works[i], goes_of(micros[i]));
            micros[i] = turn < micros[i] ? turn : micros[i];
        }
}
