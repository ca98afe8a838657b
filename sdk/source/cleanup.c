/* The end of a thread, the routines that run at it, and cancellation. */
#include "kit.h"
#include <pthread.h>

/* The routines that the kernel does not keep, the last one first. They stand above those that it keeps. */
static __thread struct fsu_cleanup *cleanups;

void fsu_push_cleanup(struct fsu_cleanup *cleanup, void (*routine)(void *), void *argument)
{
    static int is_missing;      /* the kernel's call */

    *cleanup = (struct fsu_cleanup){ routine, argument, cleanups, 0 };
    if (!is_missing) {
        fsu_error error = fsu_cleanup_push((fsu_routine *)(uintptr_t)routine, (uintptr_t)argument);
        cleanup->is_in_kernel = error == 0;
        is_missing = error == FSU_ENOSYS;
    }
    if (!cleanup->is_in_kernel)
        cleanups = cleanup;
}

void fsu_pop_cleanup(struct fsu_cleanup *cleanup, int run)
{
    if (cleanup->is_in_kernel) {
        fsu_cleanup_pop(run != 0);
        return;
    }
    cleanups = cleanup->below;
    if (run)
        cleanup->routine(cleanup->argument);
}

void pthread_exit(void *value)
{
    while (cleanups != NULL)
        fsu_pop_cleanup(cleanups, 1);
    fsu_end_thread((uintptr_t)value);
}

int pthread_cancel(pthread_t thread)
{
    return (int)fsu_cancel(thread);
}

static int give_old(fsu_answer answer, int *old)
{
    if (answer.error == 0 && old != NULL)
        *old = (int)answer.value;
    return (int)answer.error;
}

int pthread_setcancelstate(int state, int *old)
{
    return give_old(fsu_set_cancel_state((uint32_t)state), old);
}

int pthread_setcanceltype(int type, int *old)
{
    return give_old(fsu_set_cancel_type((uint32_t)type), old);
}

void pthread_testcancel(void)
{
    fsu_test_cancel();
}
