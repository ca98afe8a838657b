/* Sixty-three threads that main makes, each of which adds to a counter under one mutex. Those of greater priority
   go first, and each yields while it has the mutex, so that many wait. */
#include "fsu.h"

enum { MUTEX = 0, THREADS = 63 };

fsu_stack stacks[THREADS];
uint32_t counter;

uint32_t worker(uint32_t rounds)
{
    for (uint32_t i = 0; i < rounds; i++) {
        fsu_lock(MUTEX);
        counter++;
        fsu_yield();
        fsu_unlock(MUTEX);
    }
    return rounds;
}

int main(void)
{
    fsu_tid threads[THREADS];

    fsu_mutex_init(MUTEX, FSU_NORMAL);
    for (uint32_t i = 0; i < THREADS; i++)
        threads[i] = fsu_create(worker, 1 + i % 2, &stacks[i], FSU_PRIORITY(FSU_FIFO, 7 + i % 2)).value;
    for (uint32_t i = 0; i < THREADS; i++)
        fsu_join(threads[i]);
    return (int)counter;
}
