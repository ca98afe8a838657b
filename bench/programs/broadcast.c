/* WAITERS threads wait for one condition, and main wakes all of them by a broadcast, 10 ROUNDS times. They go before
   main by their priority, so after each broadcast each has the mutex back, one after another, and waits again. */
#include "calls.h"

static fsu_stack stacks[WAITERS];

static uint32_t wait(uint32_t value)
{
    fsu_lock(0);
    CALLS("li a7, 282\n 1: ecall\n j 1b");
    return value;
}

int main(void)
{
    fsu_mutex_init(0, FSU_NORMAL);
    fsu_cond_init(0);
    for (uint32_t i = 0; i < WAITERS; i++)
        fsu_create(wait, 0, &stacks[i], FSU_PRIORITY(FSU_OTHER, 9));
    for (uint32_t left = ROUNDS; left > 0; left--)
        CALLS("li a7, 285\n .rept 10\n ecall\n .endr");
    return 0;
}
