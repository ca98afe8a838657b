/* picolibc's one lock, under which it changes what it shares, malloc's memory above all, in the place of picolibc's
   own, which does nothing. GNU ld takes what is in picolibc's archive already before ours, so the __wrap functions get
   the calls (--wrap). lld takes the first archive, and --wrap would bring this into each program; so there the names
   themselves are ours. */
#include <pthread.h>
#include <stdlib.h>

static pthread_mutex_t shared = PTHREAD_RECURSIVE_MUTEX_INITIALIZER_NP;

__attribute__((weak)) char __lock___libc_recursive_mutex;

/* Without the lock nothing may go on: two threads would change the same memory. */
static void demand(int error)
{
    if (error != 0)
        abort();
}

void __wrap___retarget_lock_acquire_recursive(void *lock)
{
    (void)lock;
    demand(pthread_mutex_lock(&shared));
}

void __wrap___retarget_lock_release_recursive(void *lock)
{
    (void)lock;
    demand(pthread_mutex_unlock(&shared));
}

__attribute__((weak, alias("__wrap___retarget_lock_acquire_recursive")))
void __retarget_lock_acquire_recursive(void *lock);
__attribute__((weak, alias("__wrap___retarget_lock_release_recursive")))
void __retarget_lock_release_recursive(void *lock);
