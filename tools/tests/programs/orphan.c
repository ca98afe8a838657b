/* A thread returns with a mutex that it has locked. Nobody has the mutex then, and who waits for it waits for good. */
#include "fsu.h"

enum { MUTEX = 0 };

fsu_stack stack;

uint32_t careless(uint32_t value)
{
    fsu_lock(MUTEX);
    return value;
}

int main(void)
{
    fsu_mutex_init(MUTEX, FSU_NORMAL);
    fsu_create(careless, 5, &stack, 0);
    fsu_yield();
    fsu_lock(MUTEX);
    return 0;
}
