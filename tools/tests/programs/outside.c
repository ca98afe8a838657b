/* Signals that come while all threads wait: each entry of its journal comes alone, however far its place is. One is
   blocked by both threads and is left, one is ignored and dropped, one lets main make its join again, and one ends
   the wait of thread 2 for the condition. */
#include "fsu.h"

enum { HUP = 1, USR1 = 10, USR2 = 12, TERM = 15 };

fsu_stack stack;

void handle(uint32_t signal)
{
    (void)signal;
    fsu_write(1, "handled\n", 8);
}

uint32_t waiting(uint32_t value)
{
    fsu_lock(0);
    fsu_cond_wait(0, 0);
    fsu_unlock(0);
    return value;
}

int main(void)
{
    fsu_action(HUP, (uintptr_t)handle, 0);
    fsu_action(USR1, (uintptr_t)handle, 0);
    fsu_action(USR2, FSU_IGNORE, 0);
    fsu_mask(FSU_BLOCK, 1 << TERM);
    fsu_mutex_init(0, FSU_NORMAL);
    fsu_cond_init(0);
    fsu_tid thread = fsu_create(waiting, 3, &stack, 0).value;
    fsu_mask(FSU_BLOCK, 1 << USR1);
    return (int)fsu_join(thread).value;
}
