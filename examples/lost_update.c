/* counter++ of two threads without a mutex, three times each, and updates are lost, since a turn ends between a load
   and its store. The journal of this example, journals/lost_update, has four ticks while main counts rounds, the last
   of them after 4,000 instructions. A turn is four ticks, so main's is over, and thread 2 begins. Four ticks more come
   in its first eight instructions. In the trace: `run 3` stands behind `arrive 8 tick`, where thread 2 has stored 1 and
   has loaded it again. Thread 3 counts from that 1 to 4 and ends (`gone 3 4`). Thread 2 stores 2, from what it had
   loaded, and then 3. So the end is `end exit 3`, not 6. Under the empty journal no turn ends: the last line is
   `end exit 6`.
   With each compiler thread 2 has made the same instructions at the last tick: it begins right at the fourth, in the
   midst of main's rounds, and its routine is in assembly. */
#include "fsu.h"

enum { TIMES = 3, ROUNDS = 5000 };

fsu_stack stacks[2];
volatile uint32_t counter, rounds;

/* Adds 1 to the counter so often, and returns what it is then. */
uint32_t add(uint32_t times);
__asm__(".text\n"
        ".balign 256\n"
        ".type  add, @function\n"
        "add:\n"
        "    lui   t0, %hi(counter)\n"
        "    addi  t0, t0, %lo(counter)\n"
        "again:\n"
        "    lw    t1, 0(t0)\n"
        "    addi  t1, t1, 1\n"
        "    sw    t1, 0(t0)\n"
        "    addi  a0, a0, -1\n"
        "    bnez  a0, again\n"
        "    lw    a0, 0(t0)\n"
        "    ret\n"
        ".size  add, . - add\n");

int main(void)
{
    fsu_tid first = fsu_create(add, TIMES, &stacks[0], 0).value;
    fsu_tid second = fsu_create(add, TIMES, &stacks[1], 0).value;
    while (rounds < ROUNDS)
        rounds++;
    fsu_join(first);
    fsu_join(second);
    return (int)counter;
}
