/* Making threads and waiting for their end. */
#include "kit.h"
#include "stacks.h"
#include <pthread.h>

enum { MOST_THREADS = PTHREAD_THREADS_MAX, DEFAULT_STACK = 16384, DEFAULT_PRIORITY = 8 };

/* What the library knows of the thread that it made last with a number. Where there is no stack, nothing. A number
   may come again before the library has heard of the end of the thread that had it; the serial tells them apart. */
struct known {
    char *stack;
    uint32_t stack_size;
    uint32_t serial;
    int is_detached;
};

static struct known threads[MOST_THREADS + 1];
static uint32_t last_serial;

static const pthread_attr_t default_attributes = {
    .fsu_stack_size = DEFAULT_STACK, .fsu_is_detached = PTHREAD_CREATE_JOINABLE,
    .fsu_is_explicit = PTHREAD_INHERIT_SCHED, .fsu_policy = SCHED_OTHER, .fsu_priority = DEFAULT_PRIORITY,
};

static void forget(struct known *known)
{
    fsu_give_stack(known->stack);
    known->stack = NULL;
}

/* Takes back the stacks of detached threads that have ended. The kernel says which: it has no such thread any more. */
static void forget_ended(void)
{
    for (fsu_tid number = 1; number <= MOST_THREADS; number++)
        if (threads[number].stack != NULL && threads[number].is_detached && fsu_detach(number) == FSU_ESRCH)
            forget(&threads[number]);
}

static char *take_stack(uint32_t size)
{
    char *stack = fsu_take_stack(size);

    if (stack != NULL)
        return stack;
    forget_ended();
    return fsu_take_stack(size);
}

static uint32_t kernel_attributes(const pthread_attr_t *attributes)
{
    uint32_t word = attributes->fsu_is_detached ? FSU_DETACHED : 0;

    if (attributes->fsu_is_explicit)
        word |= FSU_PRIORITY((uint32_t)attributes->fsu_policy, (uint32_t)attributes->fsu_priority);
    return word;
}

/* Makes the thread, between enter, which answered the mask, and leave. Its number may be that of one that ended, whose
   stack is free then. */
static fsu_answer create_entered(const pthread_attr_t *attributes, void *(*routine)(void *), void *argument,
                                 uint32_t mask)
{
    uint32_t size = attributes->fsu_stack_size + fsu_storage_size();
    size = (size + STACK_ALIGNMENT - 1) / STACK_ALIGNMENT * STACK_ALIGNMENT;
    char *stack = take_stack(size);

    if (stack == NULL)
        return (fsu_answer){ FSU_EAGAIN, 0 };
    struct fsu_thread *thread = fsu_prepare((fsu_routine *)(uintptr_t)routine, (uintptr_t)argument, stack, size);
    thread->mask = mask;
    fsu_answer answer = fsu_start(thread, kernel_attributes(attributes));
    if (answer.error != 0) {
        fsu_give_stack(stack);
        return answer;
    }
    struct known *known = &threads[answer.value];
    if (known->stack != NULL)
        forget(known);
    *known = (struct known){ stack, size, ++last_serial, attributes->fsu_is_detached };
    return answer;
}

int pthread_create(pthread_t *restrict thread, const pthread_attr_t *restrict attributes, void *(*routine)(void *),
                   void *restrict argument)
{
    uint32_t mask = fsu_enter();
    fsu_answer answer = create_entered(attributes == NULL ? &default_attributes : attributes, routine, argument,
                                       mask);

    fsu_leave(mask);
    if (answer.error == 0)
        *thread = answer.value;
    return (int)answer.error;
}

int pthread_join(pthread_t thread, void **value)
{
    uint32_t serial = thread <= MOST_THREADS ? threads[thread].serial : 0;
    fsu_answer answer = fsu_join(thread);

    if (answer.error != 0)
        return (int)answer.error;
    if (value != NULL)
        *value = (void *)(uintptr_t)answer.value;
    uint32_t mask = fsu_enter();
    struct known *known = &threads[thread];
    if (known->stack != NULL && known->serial == serial) {
        fsu_check_stack(fsu_record_at(known->stack, known->stack_size), thread);
        forget(known);
    }
    fsu_leave(mask);
    return 0;
}

int pthread_detach(pthread_t thread)
{
    uint32_t mask = fsu_enter();
    fsu_error error = fsu_detach(thread);

    if (error == 0)
        threads[thread].is_detached = 1;
    fsu_leave(mask);
    return (int)error;
}

pthread_t pthread_self(void)
{
    return fsu_self();
}

int pthread_equal(pthread_t one, pthread_t other)
{
    return one == other;
}

int sched_yield(void)
{
    fsu_yield();
    return 0;
}

int pthread_yield(void)
{
    return sched_yield();
}

int pthread_attr_init(pthread_attr_t *attributes)
{
    *attributes = default_attributes;
    return 0;
}
