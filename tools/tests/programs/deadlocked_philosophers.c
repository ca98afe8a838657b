/* Five philosophers at a round table. Each takes the fork at its left, yields, and wants the one at its right:
   a circle of five threads and five mutexes, and nobody can go on. */
#include "fsu.h"

enum { PHILOSOPHERS = 5 };

fsu_stack stacks[PHILOSOPHERS];

uint32_t philosopher(uint32_t seat)
{
    fsu_lock(seat);
    fsu_yield();
    fsu_lock((seat + 1) % PHILOSOPHERS);
    fsu_unlock((seat + 1) % PHILOSOPHERS);
    fsu_unlock(seat);
    return seat;
}

int main(void)
{
    fsu_tid threads[PHILOSOPHERS];

    for (uint32_t fork = 0; fork < PHILOSOPHERS; fork++)
        fsu_mutex_init(fork, FSU_NORMAL);
    for (uint32_t seat = 0; seat < PHILOSOPHERS; seat++)
        threads[seat] = fsu_create(philosopher, seat, &stacks[seat], 0).value;
    for (uint32_t seat = 0; seat < PHILOSOPHERS; seat++)
        fsu_join(threads[seat]);
    return 0;
}
