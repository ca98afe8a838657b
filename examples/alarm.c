/* A sleep that is over, and one that the alarm ends. The journal of this example, journals/alarm, has two ticks; each
   comes as soon as the only thread sleeps, however far its place is. In the trace: call 293 sets the alarm to two ticks.
   The sleep of one tick (292) waits (`block`), and the first tick answers it: `done 1 0 0`. In the sleep of three the
   second tick lets the alarm go off (`alarm`), and the handler ends the sleep: `done 1 4 2` is the error EINTR, with two
   ticks left. The clock (294) says 2, and the end is `end exit 2`. Under the empty journal no tick comes: the last line
   is `end idle`. */
#include "fsu.h"

enum { ALARM = 14 };

void handle(uint32_t signal)
{
    (void)signal;
}

int main(void)
{
    fsu_action(ALARM, (uintptr_t)handle, 0);
    fsu_alarm(2);
    fsu_sleep(1);
    fsu_sleep(3);
    return (int)fsu_clock().value;
}
