/* Times pieces of work side by side. */
#ifndef TIMING_H
#define TIMING_H

#include <stddef.h>

/* Something to do once, with what it is done with. */
struct work {
    void (*once)(void *with);
    void *with;
};

/* Does each piece of work once, and writes its time in microseconds of processor time. */
void time_first(const struct work *works, size_t count, double *micros);

/* Lowers these times to the best of several rounds; work that is slow is left as it was timed first. */
void time_side_by_side(const struct work *works, size_t count, double *micros);

#endif
