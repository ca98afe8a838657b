/* Two threads that yield to each other, each 100 ROUNDS times. */
#include "calls.h"

static fsu_stack stack;

static uint32_t yield(uint32_t rounds)
{
    for (; rounds > 0; rounds--)
        CALLS("li a7, 261\n .rept 100\n ecall\n .endr");
    return 0;
}

int main(void)
{
    fsu_create(yield, ROUNDS, &stack, 0);
    yield(ROUNDS);
    return 0;
}
