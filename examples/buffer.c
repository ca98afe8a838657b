/* A buffer of two places: thread 2 puts letters in, main takes them out and writes them. Each holds the mutex but
   while it waits. In the trace: main finds the buffer empty, and the call 282 on condition 1 blocks. Thread 2 puts
   two letters, each with a signal (284). A signal alone lets nobody go on: main is answered (`done 1 0 0`) only
   where thread 2 releases the mutex, by its own wait on condition 0 (282): the buffer is full. So they go by turns,
   and the `out` lines are 61, 62, 63, 64. */
#include "fsu.h"

enum { MUTEX = 0, NOT_FULL = 0, NOT_EMPTY = 1, PLACES = 2, LETTERS = 4 };

fsu_stack stack;
char places[PLACES];
uint32_t put, taken;

uint32_t producer(uint32_t letters)
{
    fsu_lock(MUTEX);
    for (uint32_t i = 0; i < letters; i++) {
        while (put - taken == PLACES)
            fsu_cond_wait(NOT_FULL, MUTEX);
        places[put++ % PLACES] = (char)('a' + i);
        fsu_cond_signal(NOT_EMPTY);
    }
    fsu_unlock(MUTEX);
    return 0;
}

int main(void)
{
    fsu_mutex_init(MUTEX, FSU_NORMAL);
    fsu_cond_init(NOT_FULL);
    fsu_cond_init(NOT_EMPTY);
    fsu_create(producer, LETTERS, &stack, 0);
    fsu_lock(MUTEX);
    for (uint32_t i = 0; i < LETTERS; i++) {
        while (put == taken)
            fsu_cond_wait(NOT_EMPTY, MUTEX);
        fsu_write(1, &places[taken++ % PLACES], 1);
        fsu_cond_signal(NOT_FULL);
    }
    fsu_unlock(MUTEX);
    return 0;
}
