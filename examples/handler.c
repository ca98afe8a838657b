/* Signals from outside, and a handler. The journal of this example, journals/handler, brings the signal 10 after 5,000
   instructions and after 10,000, while main goes round its loop. In the trace: the call 286 sets the handler.
   `arrive 1 1 sig 10` is the journal's entry 1, and `deliver 1 10 1` lets thread 1 enter the handler, between two
   instructions of the loop, where it makes no call. The handler writes (64), and after `ret 1 handler` main goes on
   where it was. Entry 2 does the same, and the end is `end exit 2`. Under the empty journal nobody ends the loop: the
   last line is `end budget`. */
#include "fsu.h"

enum { SIGNAL = 10, TIMES = 2 };

volatile uint32_t handled[32];

void handle(uint32_t signal)
{
    fsu_write(1, "handled\n", 8);
    handled[signal]++;
}

int main(void)
{
    fsu_action(SIGNAL, (uintptr_t)handle, 0);
    while (handled[SIGNAL] < TIMES) {
    }
    return (int)handled[SIGNAL];
}
