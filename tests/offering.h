/* Memory offered to one call, with a judgement of what the call did to it. */
#ifndef OFFERING_H
#define OFFERING_H

#include "support.h"

enum { OFFERS = 8 };

/* Lends memory for the next call: a copy of this, or filled with one byte where that is null. */
void *offer(const void *from, size_t bytes);

/* Counts one test: the answer is the expected one, nothing else is touched, and of each piece offered, in order, only
   its first bytes, as many as are said to be written, and none by a refused call. Then all offers are gone. */
void judge_offered(const char *what, uint64_t answer, uint64_t expected, const size_t *written);

#endif
