/* Attributes and priorities of threads. */
#include "kit.h"
#include <errno.h>
#include <pthread.h>

enum { LEAST_PRIORITY = 0, GREATEST_PRIORITY = 31 };

int sched_get_priority_min(int policy)
{
    (void)policy;
    return LEAST_PRIORITY;
}

int sched_get_priority_max(int policy)
{
    (void)policy;
    return GREATEST_PRIORITY;
}

static int is_policy(int policy)
{
    return policy == SCHED_OTHER || policy == SCHED_FIFO || policy == SCHED_RR;
}

static int is_priority(int priority)
{
    return LEAST_PRIORITY <= priority && priority <= GREATEST_PRIORITY;
}

int pthread_attr_destroy(pthread_attr_t *attributes)
{
    (void)attributes;
    return 0;
}

int pthread_attr_setstacksize(pthread_attr_t *attributes, size_t size)
{
    if (size < PTHREAD_STACK_MIN || size > (size_t)(fsu_layout.stacks_end - fsu_layout.stacks))
        return EINVAL;
    attributes->fsu_stack_size = size;
    return 0;
}

int pthread_attr_getstacksize(const pthread_attr_t *restrict attributes, size_t *restrict size)
{
    *size = attributes->fsu_stack_size;
    return 0;
}

int pthread_attr_setdetachstate(pthread_attr_t *attributes, int state)
{
    if (state != PTHREAD_CREATE_JOINABLE && state != PTHREAD_CREATE_DETACHED)
        return EINVAL;
    attributes->fsu_is_detached = state;
    return 0;
}

int pthread_attr_getdetachstate(const pthread_attr_t *attributes, int *state)
{
    *state = attributes->fsu_is_detached;
    return 0;
}

int pthread_attr_setinheritsched(pthread_attr_t *attributes, int inherit)
{
    if (inherit != PTHREAD_INHERIT_SCHED && inherit != PTHREAD_EXPLICIT_SCHED)
        return EINVAL;
    attributes->fsu_is_explicit = inherit;
    return 0;
}

int pthread_attr_getinheritsched(const pthread_attr_t *restrict attributes, int *restrict inherit)
{
    *inherit = attributes->fsu_is_explicit;
    return 0;
}

int pthread_attr_setschedpolicy(pthread_attr_t *attributes, int policy)
{
    if (!is_policy(policy))
        return EINVAL;
    attributes->fsu_policy = policy;
    return 0;
}

int pthread_attr_getschedpolicy(const pthread_attr_t *restrict attributes, int *restrict policy)
{
    *policy = attributes->fsu_policy;
    return 0;
}

int pthread_attr_setschedparam(pthread_attr_t *restrict attributes, const struct sched_param *restrict parameters)
{
    if (!is_priority(parameters->sched_priority))
        return EINVAL;
    attributes->fsu_priority = parameters->sched_priority;
    return 0;
}

int pthread_attr_getschedparam(const pthread_attr_t *restrict attributes, struct sched_param *restrict parameters)
{
    parameters->sched_priority = attributes->fsu_priority;
    return 0;
}

int pthread_attr_setscope(pthread_attr_t *attributes, int scope)
{
    (void)attributes;
    return scope == PTHREAD_SCOPE_PROCESS ? 0 : scope == PTHREAD_SCOPE_SYSTEM ? ENOTSUP : EINVAL;
}

int pthread_attr_getscope(const pthread_attr_t *restrict attributes, int *restrict scope)
{
    (void)attributes;
    *scope = PTHREAD_SCOPE_PROCESS;
    return 0;
}

int pthread_setschedparam(pthread_t thread, int policy, const struct sched_param *parameters)
{
    return (int)fsu_set_scheduling(thread, (uint32_t)policy, (uint32_t)parameters->sched_priority);
}

int pthread_getschedparam(pthread_t thread, int *restrict policy, struct sched_param *restrict parameters)
{
    fsu_answer answer = fsu_get_scheduling(thread);

    if (answer.error != 0)
        return (int)answer.error;
    *policy = (int)(answer.value / 256);
    parameters->sched_priority = (int)(answer.value % 256);
    return 0;
}

int pthread_setschedprio(pthread_t thread, int priority)
{
    struct sched_param parameters;
    int policy;
    int error = pthread_getschedparam(thread, &policy, &parameters);

    if (error != 0)
        return error;
    parameters.sched_priority = priority;
    return pthread_setschedparam(thread, policy, &parameters);
}
