/* Sleeping and the clock. */
#include "kit.h"
#include "ticks.h"
#include <errno.h>
#include <time.h>
#include <unistd.h>

enum { NANOSECONDS_A_SECOND = 1000000000, NANOSECONDS_A_MICROSECOND = 1000, MICROSECONDS_A_SECOND = 1000000 };

int fsu_ticks(const struct timespec *time, uint32_t *ticks)
{
    if (time->tv_nsec < 0 || time->tv_nsec >= NANOSECONDS_A_SECOND)
        return EINVAL;
    if (time->tv_sec < 0)
        *ticks = 0;
    else if (time->tv_sec >= UINT32_MAX / TICKS_A_SECOND)
        *ticks = UINT32_MAX;
    else
        *ticks = (uint32_t)time->tv_sec * TICKS_A_SECOND
            + ((uint32_t)time->tv_nsec + NANOSECONDS_A_TICK - 1) / NANOSECONDS_A_TICK;
    return 0;
}

static struct timespec time_of(uint32_t ticks)
{
    return (struct timespec){ .tv_sec = ticks / TICKS_A_SECOND,
                              .tv_nsec = (long)(ticks % TICKS_A_SECOND) * NANOSECONDS_A_TICK };
}

/* -1 with errno where there is an error. */
static int told(uint32_t error)
{
    if (error == 0)
        return 0;
    errno = (int)error;
    return -1;
}

int clock_gettime(clockid_t clock, struct timespec *now)
{
    if (clock != CLOCK_REALTIME && clock != CLOCK_MONOTONIC)
        return told(EINVAL);
    *now = time_of(fsu_clock().value);
    return 0;
}

int clock_getres(clockid_t clock, struct timespec *resolution)
{
    if (clock != CLOCK_REALTIME && clock != CLOCK_MONOTONIC)
        return told(EINVAL);
    if (resolution != NULL)
        *resolution = time_of(1);
    return 0;
}

int nanosleep(const struct timespec *duration, struct timespec *left)
{
    uint32_t ticks;
    int error = duration->tv_sec < 0 ? EINVAL : fsu_ticks(duration, &ticks);

    if (error != 0)
        return told((uint32_t)error);
    fsu_answer answer = fsu_sleep(ticks);
    if (answer.error == EINTR && left != NULL)
        *left = time_of(answer.value);
    return told(answer.error);
}

static uint32_t ticks_of_seconds(unsigned seconds)
{
    return seconds > UINT32_MAX / TICKS_A_SECOND ? UINT32_MAX : seconds * TICKS_A_SECOND;
}

static unsigned seconds_of_ticks(uint32_t ticks)
{
    return ticks / TICKS_A_SECOND + (ticks % TICKS_A_SECOND != 0);
}

unsigned sleep(unsigned seconds)
{
    fsu_answer answer = fsu_sleep(ticks_of_seconds(seconds));

    return answer.error == 0 ? 0 : seconds_of_ticks(answer.value);
}

int usleep(useconds_t microseconds)
{
    struct timespec duration = { .tv_sec = microseconds / MICROSECONDS_A_SECOND,
                                 .tv_nsec = (long)(microseconds % MICROSECONDS_A_SECOND) * NANOSECONDS_A_MICROSECOND };

    return nanosleep(&duration, NULL);
}

unsigned alarm(unsigned seconds)
{
    return seconds_of_ticks(fsu_alarm(ticks_of_seconds(seconds)).value);
}
