/* Two threads that yield to each other. In the trace: the call 256 makes thread 2, which waits its turn after
   thread 1. Each call 261 is a yield, and `run T` after it says who goes on: 1 and 2 by turns. The call 258 is
   the join: thread 1 waits (`block`) until thread 2 is `gone` with 7, and is then `done` with that value. */
#include "fsu.h"

fsu_stack stack;

uint32_t other(uint32_t value)
{
    fsu_yield();
    fsu_yield();
    return value;
}

int main(void)
{
    fsu_tid thread = fsu_create(other, 7, &stack, 0).value;
    fsu_yield();
    fsu_yield();
    return (int)fsu_join(thread).value;
}
