/* Locks 200 mutexes (STAGE 1 and 2) and unlocks them (STAGE 2), where nobody waits. One instruction stands before each
   ECALL, and puts the mutex into a0. */
#include "calls.h"

#define EACH_MUTEX ".set mutex, 0\n .rept 200\n li a0, mutex\n ecall\n .set mutex, mutex + 1\n .endr"

int main(void)
{
    for (uint32_t i = 0; i < 200; i++)
        fsu_mutex_init(i, FSU_NORMAL);
    if (STAGE >= 1)
        CALLS("li a7, 276\n" EACH_MUTEX);
    if (STAGE >= 2)
        CALLS("li a7, 278\n" EACH_MUTEX);
    return 0;
}
