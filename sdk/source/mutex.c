/* Mutexes. */
#include "numbers.h"

enum { KIND_BITS = 3, PROTOCOL_BITS = 3 << 4 };

int pthread_mutex_init(pthread_mutex_t *restrict mutex, const pthread_mutexattr_t *restrict attributes)
{
    uint32_t number;

    mutex->fsu_word = 0;
    mutex->fsu_attributes = attributes == NULL ? PTHREAD_MUTEX_DEFAULT : attributes->fsu_attributes;
    mutex->fsu_ceiling = attributes == NULL ? 0 : attributes->fsu_ceiling;
    return fsu_mutex_number(mutex, &number);
}

int pthread_mutex_lock(pthread_mutex_t *mutex)
{
    uint32_t number;
    int error = fsu_mutex_number(mutex, &number);

    return error != 0 ? error : (int)fsu_lock(number);
}

int pthread_mutex_trylock(pthread_mutex_t *mutex)
{
    uint32_t number;
    int error = fsu_mutex_number(mutex, &number);

    return error != 0 ? error : (int)fsu_trylock(number);
}

int pthread_mutex_unlock(pthread_mutex_t *mutex)
{
    uint32_t number;
    int error = fsu_mutex_number(mutex, &number);

    return error != 0 ? error : (int)fsu_unlock(number);
}

int pthread_mutexattr_init(pthread_mutexattr_t *attributes)
{
    *attributes = (pthread_mutexattr_t){ PTHREAD_MUTEX_DEFAULT, 0 };
    return 0;
}

int pthread_mutexattr_destroy(pthread_mutexattr_t *attributes)
{
    (void)attributes;
    return 0;
}

int pthread_mutexattr_settype(pthread_mutexattr_t *attributes, int type)
{
    if (type < PTHREAD_MUTEX_NORMAL || type > PTHREAD_MUTEX_RECURSIVE)
        return FSU_EINVAL;
    attributes->fsu_attributes = (attributes->fsu_attributes & ~(uint32_t)KIND_BITS) | (uint32_t)type;
    return 0;
}

int pthread_mutexattr_gettype(const pthread_mutexattr_t *restrict attributes, int *restrict type)
{
    *type = (int)(attributes->fsu_attributes & KIND_BITS);
    return 0;
}

int pthread_mutexattr_setprotocol(pthread_mutexattr_t *attributes, int protocol)
{
    if (protocol < PTHREAD_PRIO_NONE || protocol > PTHREAD_PRIO_PROTECT)
        return FSU_EINVAL;
    attributes->fsu_attributes = (attributes->fsu_attributes & ~(uint32_t)PROTOCOL_BITS) | (uint32_t)protocol << 4;
    return 0;
}

int pthread_mutexattr_getprotocol(const pthread_mutexattr_t *restrict attributes, int *restrict protocol)
{
    *protocol = (int)((attributes->fsu_attributes & PROTOCOL_BITS) >> 4);
    return 0;
}

int pthread_mutexattr_setprioceiling(pthread_mutexattr_t *attributes, int ceiling)
{
    if (ceiling < sched_get_priority_min(SCHED_FIFO) || ceiling > sched_get_priority_max(SCHED_FIFO))
        return FSU_EINVAL;
    attributes->fsu_ceiling = (uint32_t)ceiling;
    return 0;
}

int pthread_mutexattr_getprioceiling(const pthread_mutexattr_t *restrict attributes, int *restrict ceiling)
{
    *ceiling = (int)attributes->fsu_ceiling;
    return 0;
}

int pthread_mutex_getprioceiling(const pthread_mutex_t *restrict mutex, int *restrict ceiling)
{
    uint32_t number;
    int error = fsu_mutex_number((pthread_mutex_t *)mutex, &number);

    if (error != 0)
        return error;
    fsu_answer answer = fsu_mutex_ceiling(number);
    if (answer.error == 0)
        *ceiling = (int)answer.value;
    return (int)answer.error;
}
