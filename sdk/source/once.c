/* What is done once: routines of pthread_once, and static variables of C++ functions. */
#include "numbers.h"

void abort(void) __attribute__((noreturn));

/* The first byte is not 0 exactly where it is done: compilers of C++ look at that byte by themselves. */
enum { NEW = 0, DONE = 1, RUNS = 256 };

/* Something was done, or given up. */
static pthread_cond_t changed = PTHREAD_COND_INITIALIZER;

/* Waits while another thread does it; between enter and leave. No cancellation acts here, with the library's mutex
   in hand. */
static int wait_while_it_runs(const volatile pthread_once_t *once)
{
    uint32_t number;

    if (once->fsu_state != RUNS)
        return 0;
    int error = fsu_condition_number_entered(&changed, &number);
    uint32_t old = fsu_set_cancel_state(PTHREAD_CANCEL_DISABLE).value;
    while (error == 0 && once->fsu_state == RUNS)
        error = (int)fsu_cond_wait(number, FSU_GUARD);
    fsu_set_cancel_state(old);
    return error;
}

/* Says whether the caller is to do it. Answers an error. */
static int begin(pthread_once_t *once, int *is_due)
{
    uint32_t mask = fsu_enter();
    int error = wait_while_it_runs(once);

    *is_due = error == 0 && once->fsu_state == NEW;
    if (*is_due)
        once->fsu_state = RUNS;
    fsu_leave(mask);
    return error;
}

static void become(pthread_once_t *once, int state)
{
    uint32_t mask = fsu_enter();

    once->fsu_state = state;
    if (changed.fsu_word != 0)
        pthread_cond_broadcast(&changed);
    fsu_leave(mask);
}

/* A thread that ends within the routine leaves it to another. */
static void give_up(void *once)
{
    become(once, NEW);
}

int pthread_once(pthread_once_t *once, void (*routine)(void))
{
    int is_due;

    if (once->fsu_state == DONE)
        return 0;
    int error = begin(once, &is_due);
    if (is_due) {
        pthread_cleanup_push(give_up, once);
        routine();
        pthread_cleanup_pop(0);
        become(once, DONE);
    }
    return error;
}

/* C++ has no answer for an error. */
int __cxa_guard_acquire(pthread_once_t *guard)
{
    int is_due;

    if (begin(guard, &is_due) != 0)
        abort();
    return is_due;
}

void __cxa_guard_release(pthread_once_t *guard)
{
    become(guard, DONE);
}

/* clang reads that byte by this. */
unsigned char __atomic_load_1(const volatile void *byte, int order)
{
    (void)order;
    return *(const volatile unsigned char *)byte;
}
