/* The same counter++ with a mutex around it, under the same journal: no update is lost. In the trace: `run 3` stands
   behind `arrive 8 tick`, where thread 2 has loaded the counter and has mutex 0. So thread 3 asks for the mutex (276)
   and waits (`block`), main makes the rest of its rounds, and thread 2 stores. Its unlock (278) hands the mutex over:
   `done 3 0 0`. From there on each waits for the other's unlock, and the end is `end exit 6`.
   The routine is in assembly for the same reason as that of lost_update.c. */
#include "fsu.h"

enum { TIMES = 3, ROUNDS = 5000 };

fsu_stack stacks[2];
volatile uint32_t counter, rounds;

/* Adds 1 to the counter so often, each time with mutex 0, and returns what it is then. A call changes a0 and a1
   alone, and the answer of both calls is 0 and 0. */
uint32_t add(uint32_t times);
__asm__(".text\n"
        ".balign 256\n"
        ".type  add, @function\n"
        "add:\n"
        "    lui   t0, %hi(counter)\n"
        "    addi  t0, t0, %lo(counter)\n"
        "    mv    t2, a0\n"
        "    li    a0, 0\n"
        "again:\n"
        "    li    a7, 276\n"
        "    ecall\n"
        "    lw    t1, 0(t0)\n"
        "    addi  t1, t1, 1\n"
        "    sw    t1, 0(t0)\n"
        "    li    a7, 278\n"
        "    ecall\n"
        "    addi  t2, t2, -1\n"
        "    bnez  t2, again\n"
        "    lw    a0, 0(t0)\n"
        "    ret\n"
        ".size  add, . - add\n");

int main(void)
{
    fsu_mutex_init(0, FSU_NORMAL);
    fsu_tid first = fsu_create(add, TIMES, &stacks[0], 0).value;
    fsu_tid second = fsu_create(add, TIMES, &stacks[1], 0).value;
    while (rounds < ROUNDS)
        rounds++;
    fsu_join(first);
    fsu_join(second);
    return (int)counter;
}
