/* Times of POSIX in ticks of 10 ms. */
#ifndef TICKS_H
#define TICKS_H

#include <fsu_types.h>

enum { TICKS_A_SECOND = 100, NANOSECONDS_A_TICK = 10000000 };

/* The least number of ticks that is no shorter than a time; the greatest there is, where the time is longer. Answers
   an error. */
int fsu_ticks(const struct timespec *time, uint32_t *ticks);

#endif
