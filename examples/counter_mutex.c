/* The counter with a mutex: no update is lost. In the trace: while thread 2 has mutex 0 and yields, thread 3 asks
   for it (276) and waits (`block`). The unlock (278) hands the mutex over: the line `done 3 0 0` after it says
   that thread 3's lock was answered. The end is `end exit 4`. */
#include "fsu.h"

fsu_stack stacks[2];
uint32_t counter;

uint32_t add(uint32_t times)
{
    while (times-- > 0) {
        fsu_lock(0);
        uint32_t seen = counter;
        fsu_yield();
        counter = seen + 1;
        fsu_unlock(0);
    }
    return 0;
}

int main(void)
{
    fsu_mutex_init(0, FSU_NORMAL);
    fsu_tid first = fsu_create(add, 2, &stacks[0], 0).value;
    fsu_tid second = fsu_create(add, 2, &stacks[1], 0).value;
    fsu_join(first);
    fsu_join(second);
    return (int)counter;
}
