/* Two threads add 1 to a counter, twice each, and updates are lost: each reads, lets the other run, and writes.
   In the trace: between a yield (261) of thread 2 and its next line stands a yield of thread 3, so both have
   read the same number and both write the same. Both are `gone` with 2, and the end is `end exit 2`, not 4. */
#include "fsu.h"

fsu_stack stacks[2];
uint32_t counter;

uint32_t add(uint32_t times)
{
    while (times-- > 0) {
        uint32_t seen = counter;
        fsu_yield();
        counter = seen + 1;
    }
    return counter;
}

int main(void)
{
    fsu_tid first = fsu_create(add, 2, &stacks[0], 0).value;
    fsu_tid second = fsu_create(add, 2, &stacks[1], 0).value;
    fsu_join(first);
    fsu_join(second);
    return (int)counter;
}
