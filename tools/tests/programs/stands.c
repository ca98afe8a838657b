/* Each thread stands at another place when a store through a null pointer ends the run: 2 waits for a condition, 3 to
   have mutex 0 back, 4 for mutex 0, 5 has ended with 7, 6 waits for the end of 2, and main has made the store. The
   image crates/fsu_where/data/image is this program, without its symbols. */
#include "fsu.h"

fsu_stack stacks[5];

uint32_t awaits(uint32_t condition)
{
    fsu_lock(0);
    fsu_cond_wait(condition, 0);
    fsu_unlock(0);
    return 0;
}

uint32_t locks(uint32_t mutex)
{
    fsu_lock(mutex);
    fsu_unlock(mutex);
    return 0;
}

uint32_t ends(uint32_t value)
{
    return value;
}

uint32_t joins(uint32_t thread)
{
    fsu_join(thread);
    return 0;
}

struct node {
    uint32_t value;
    struct node *next;
};

void append(struct node *list, struct node *next)
{
    list->next = next;
}

int main(void)
{
    fsu_mutex_init(0, FSU_NORMAL);
    fsu_cond_init(0);
    fsu_cond_init(1);
    fsu_tid thread = fsu_create(awaits, 0, &stacks[0], 0).value;
    fsu_create(awaits, 1, &stacks[1], 0);
    fsu_yield();
    fsu_lock(0);
    fsu_cond_signal(1);
    fsu_create(locks, 0, &stacks[2], 0);
    fsu_create(ends, 7, &stacks[3], 0);
    fsu_create(joins, thread, &stacks[4], 0);
    fsu_yield();
    append(0, 0);
    return 0;
}
