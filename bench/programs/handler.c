/* ADDI and BNE by turns, 150,000 times, with a handler of signal 10 that returns at once. */
#include "fsu.h"

static void handler(uint32_t signal)
{
    (void)signal;
}

int main(void)
{
    fsu_action(10, (uint32_t)handler, 0);
    __asm__ volatile("li t0, 150000\n1: addi t0, t0, -1\n bnez t0, 1b" : : : "t0");
    return 0;
}
