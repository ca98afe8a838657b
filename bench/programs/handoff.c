/* Two threads that wait for one mutex by turns: each unlock hands it to the other thread, and the lock after it waits
   until the other's unlock. Each thread does so 50 ROUNDS times. One instruction stands before each ECALL. */
#include "calls.h"

static fsu_stack stack;

static uint32_t alternate(uint32_t rounds)
{
    fsu_lock(0);
    for (; rounds > 0; rounds--)
        CALLS(".rept 50\n li a7, 278\n ecall\n li a7, 276\n ecall\n .endr");
    fsu_exit(0);
}

int main(void)
{
    fsu_mutex_init(0, FSU_NORMAL);
    fsu_create(alternate, ROUNDS, &stack, 0);
    fsu_lock(0);
    fsu_yield();
    fsu_unlock(0);
    alternate(ROUNDS);
    return 0;
}
