/* A handler takes a mutex that its own thread may hold. Without a signal the program ends with `end exit 0`. Where the
   signal comes while main has the mutex, the handler waits for it, and main, which would release it, is the thread that
   waits: the trace ends `end idle`. docs/RACES.md finds such a place. */
#include "fsu.h"

uint32_t counter;

void handler(uint32_t signal)
{
    fsu_lock(0);
    counter += signal;
    fsu_unlock(0);
}

int main(void)
{
    fsu_mutex_init(0, FSU_NORMAL);
    fsu_action(10, (uintptr_t)handler, 0);
    for (int turn = 0; turn < 2; turn++) {
        fsu_lock(0);
        counter++;
        fsu_unlock(0);
    }
    return 0;
}
