/* A signal that a mask holds off. The journal of this example, journals/deferred, brings the signal 10 after 5,000
   instructions and after 10,000, while main counts with the signal blocked (the call 287 with 0). In the trace: after
   the two `arrive` lines comes no `deliver`, since the only thread blocks the signal, and it pends. Main writes that
   it has counted, and unblocks the signal (287 with 1). Now comes `deliver 1 10 2`: both at once, and the handler runs
   once, as POSIX has it of signals that pend. So the end is `end exit 1`. */
#include "fsu.h"

enum { SIGNAL = 10, ROUNDS = 5000 };

volatile uint32_t counted, handled[32];

void handle(uint32_t signal)
{
    fsu_write(1, "handled\n", 8);
    handled[signal]++;
}

int main(void)
{
    fsu_action(SIGNAL, (uintptr_t)handle, 0);
    fsu_mask(FSU_BLOCK, 1 << SIGNAL);
    while (counted < ROUNDS)
        counted++;
    fsu_write(1, "counted\n", 8);
    fsu_mask(FSU_UNBLOCK, 1 << SIGNAL);
    return (int)handled[SIGNAL];
}
