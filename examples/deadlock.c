/* Two threads take two mutexes in opposite order, and the trace ends `end idle`: nobody can go on.
   Who waits for what: look for the last `call` line of each thread that ends in `= block`.
     call 1 258 2 ..  thread 1 waits for the end of thread 2;
     call 2 276 1 ..  thread 2 waits for mutex 1;
     call 3 276 0 ..  thread 3 waits for mutex 0.
   Who has a mutex: look for its last lock (276) with the answer `0 0`, or the last `done` of a thread that waited
   for it, with no unlock (278) after; the README tells more. Here thread 3 has mutex 1, and thread 2 has mutex 0: a circle of 2 and 3. */
#include "fsu.h"

fsu_stack stacks[2];

uint32_t both(uint32_t first)
{
    fsu_lock(first);
    fsu_yield();
    fsu_lock(1 - first);
    fsu_unlock(1 - first);
    fsu_unlock(first);
    return 0;
}

int main(void)
{
    fsu_mutex_init(0, FSU_NORMAL);
    fsu_mutex_init(1, FSU_NORMAL);
    fsu_tid thread = fsu_create(both, 0, &stacks[0], 0).value;
    fsu_create(both, 1, &stacks[1], 0);
    fsu_join(thread);
    return 0;
}
