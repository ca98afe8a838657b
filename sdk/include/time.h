/* Time. A tick is 10 ms. All clocks are one, which counts the ticks since the start; they come from the journal. So the
   first second is that of the start, and clock, the time of the process, is the same clock. A duration is so many ticks
   that it is no shorter than asked for, up to 2^32 - 1. */
#ifndef FSU_TIME_H
#define FSU_TIME_H

#include <fsu_types.h>
#if __has_include_next(<time.h>)
#include_next <time.h>
#define FSU_TIME_IS_NEXT
#endif

#ifdef __cplusplus
extern "C" {
#endif

#ifndef CLOCK_REALTIME
#define CLOCK_REALTIME ((clockid_t)1)
#endif
#ifndef CLOCK_MONOTONIC
#define CLOCK_MONOTONIC ((clockid_t)4)
#endif

#ifndef FSU_TIME_IS_NEXT
typedef unsigned long clock_t;
#define CLOCKS_PER_SEC ((clock_t)1000000)
clock_t clock(void);
time_t time(time_t *now);
#endif

int clock_gettime(clockid_t clock, struct timespec *now);
int clock_getres(clockid_t clock, struct timespec *resolution);
int nanosleep(const struct timespec *duration, struct timespec *left);

#ifdef __cplusplus
}
#endif

#endif
