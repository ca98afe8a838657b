/* Two threads add 1 to a counter, twice each, and take no lock. Without ticks a thread makes all of its additions in one
   piece, and the program ends with `end exit 4`. A tick between the read and the write of an addition lets the other
   thread go on, and what that one writes is lost: `end exit 3` or `end exit 2`. docs/RACES.md finds such a place. */
#include "fsu.h"

fsu_stack stacks[2];
volatile uint32_t counter;

uint32_t add(uint32_t times)
{
    while (times-- > 0)
        counter++;
    return 0;
}

int main(void)
{
    fsu_tid first = fsu_create(add, 2, &stacks[0], 0).value;
    fsu_tid second = fsu_create(add, 2, &stacks[1], 0).value;
    fsu_join(first);
    fsu_join(second);
    return (int)counter;
}
