/* Condition variables. */
#include "numbers.h"
#include "ticks.h"

int pthread_cond_init(pthread_cond_t *restrict condition, const pthread_condattr_t *restrict attributes)
{
    uint32_t number;

    (void)attributes;
    condition->fsu_word = 0;
    return fsu_condition_number(condition, &number);
}

/* The numbers of both. */
static int find(pthread_cond_t *condition, pthread_mutex_t *mutex, uint32_t *number, uint32_t *mutex_number)
{
    int error = fsu_condition_number(condition, number);

    return error != 0 ? error : fsu_mutex_number(mutex, mutex_number);
}

int pthread_cond_wait(pthread_cond_t *restrict condition, pthread_mutex_t *restrict mutex)
{
    uint32_t number, mutex_number;
    int error = find(condition, mutex, &number, &mutex_number);

    return error != 0 ? error : (int)fsu_cond_wait(number, mutex_number);
}

int pthread_cond_timedwait(pthread_cond_t *restrict condition, pthread_mutex_t *restrict mutex,
                           const struct timespec *restrict end)
{
    uint32_t number, mutex_number, deadline;
    int error = fsu_ticks(end, &deadline);

    if (error == 0)
        error = find(condition, mutex, &number, &mutex_number);
    return error != 0 ? error : (int)fsu_cond_timedwait(number, mutex_number, deadline);
}

int pthread_cond_signal(pthread_cond_t *condition)
{
    uint32_t number;
    int error = fsu_condition_number(condition, &number);

    return error != 0 ? error : (int)fsu_cond_signal(number);
}

int pthread_cond_broadcast(pthread_cond_t *condition)
{
    uint32_t number;
    int error = fsu_condition_number(condition, &number);

    return error != 0 ? error : (int)fsu_cond_broadcast(number);
}

int pthread_condattr_init(pthread_condattr_t *attributes)
{
    attributes->fsu_clock = CLOCK_REALTIME;
    return 0;
}

int pthread_condattr_destroy(pthread_condattr_t *attributes)
{
    (void)attributes;
    return 0;
}

int pthread_condattr_setclock(pthread_condattr_t *attributes, clockid_t clock)
{
    if (clock != CLOCK_REALTIME && clock != CLOCK_MONOTONIC)
        return FSU_EINVAL;
    attributes->fsu_clock = clock;
    return 0;
}

int pthread_condattr_getclock(const pthread_condattr_t *restrict attributes, clockid_t *restrict clock)
{
    *clock = attributes->fsu_clock;
    return 0;
}
