/* The library's own mutex. */
#include "kit.h"

static int has_handlers;

/* Start code calls it before all constructors. It is recursive for the sake of a handler that comes in fsu_enter. */
static void make_guard(void)
{
    fsu_mutex_init(FSU_GUARD, FSU_RECURSIVE);
}

__attribute__((section(".preinit_array"), used)) static fsu_plain_routine *make_guard_first = make_guard;

/* Bit 0 of a mask is no signal: it says that signals are masked. */
enum { IS_MASKED = 1 };

/* Whether there are handlers is read with the mutex in hand. sigaction gives one with it in hand too, and has said so
   before; so where none is found here, none comes before leave. A handler that comes between the lock and the mask may
   enter too: it leaves before its thread goes on, which has changed nothing yet. */
uint32_t fsu_enter(void)
{
    fsu_lock(FSU_GUARD);
    return has_handlers ? fsu_mask(FSU_SET, ~0u).value | IS_MASKED : 0;
}

void fsu_leave(uint32_t mask)
{
    fsu_unlock(FSU_GUARD);
    if (mask & IS_MASKED)
        fsu_mask(FSU_SET, mask);
}

/* Before the first handler is given. */
void fsu_handlers_come(void)
{
    has_handlers = 1;
}
