/* Two counters are to be equal, and a handler reads both. Main adds to one and then to the other, so a signal between
   the two sees them differ: it writes `torn`, and else `even`. docs/RACES.md finds such a place. */
#include "fsu.h"

volatile uint32_t taken, given;

void report(uint32_t signal)
{
    (void)signal;
    if (taken == given)
        fsu_write(1, "even\n", 5);
    else
        fsu_write(1, "torn\n", 5);
}

int main(void)
{
    fsu_action(10, (uintptr_t)report, 0);
    for (int turn = 0; turn < 3; turn++) {
        taken++;
        given++;
    }
    return 0;
}
