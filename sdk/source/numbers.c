#include "numbers.h"

enum { INIT_MUTEX = 274, INIT_CONDITION = 280, MOST = 256 };
#define GONE 0xffffffffu

/* Numbers that objects have or had found taken, a bit each. */
static uint32_t mutexes[MOST / 32], conditions[MOST / 32];

/* Gives an object the least number that is free. One that the program took by a call of its own is passed over. */
static int take(uint32_t *taken, uint32_t *word, uint32_t call, uint32_t attributes, uint32_t ceiling)
{
    for (uint32_t number = 0; number < MOST; number++) {
        if (taken[number / 32] == ~0u)
            number |= 31;
        if (taken[number / 32] >> number % 32 & 1)
            continue;
        fsu_error error = fsu_call(call, number, attributes, ceiling, 0).error;
        if (error != 0 && error != FSU_EBUSY)
            return (int)error;
        taken[number / 32] |= 1u << number % 32;
        if (error == 0) {
            *word = number + 1;
            return 0;
        }
    }
    return FSU_EAGAIN;
}

static int number_in(uint32_t word, uint32_t *number)
{
    *number = word - 1;
    return word == GONE ? FSU_EINVAL : 0;
}

int fsu_mutex_number(pthread_mutex_t *mutex, uint32_t *number)
{
    if (mutex->fsu_word == 0) {
        uint32_t mask = fsu_enter();
        int error = mutex->fsu_word != 0 ? 0
            : take(mutexes, &mutex->fsu_word, INIT_MUTEX, mutex->fsu_attributes, mutex->fsu_ceiling);
        fsu_leave(mask);
        if (error != 0)
            return error;
    }
    return number_in(mutex->fsu_word, number);
}

int fsu_condition_number_entered(pthread_cond_t *condition, uint32_t *number)
{
    int error = condition->fsu_word != 0 ? 0 : take(conditions, &condition->fsu_word, INIT_CONDITION, 0, 0);

    return error != 0 ? error : number_in(condition->fsu_word, number);
}

int fsu_condition_number(pthread_cond_t *condition, uint32_t *number)
{
    if (condition->fsu_word != 0)
        return number_in(condition->fsu_word, number);
    uint32_t mask = fsu_enter();
    int error = fsu_condition_number_entered(condition, number);
    fsu_leave(mask);
    return error;
}

/* Takes an object away by a call, and its number is free. */
static int destroy(uint32_t *taken, uint32_t *word, fsu_error (*call)(uint32_t number))
{
    uint32_t mask = fsu_enter();
    uint32_t number = *word - 1;
    fsu_error error = *word == GONE ? FSU_EINVAL : *word == 0 ? 0 : call(number);

    if (error == 0 && *word != 0)
        taken[number / 32] &= ~(1u << number % 32);
    if (error == 0)
        *word = GONE;
    fsu_leave(mask);
    return (int)error;
}

static fsu_error destroy_mutex(uint32_t number)
{
    return fsu_mutex_destroy(number);
}

static fsu_error destroy_condition(uint32_t number)
{
    return fsu_cond_destroy(number);
}

int pthread_mutex_destroy(pthread_mutex_t *mutex)
{
    return destroy(mutexes, &mutex->fsu_word, destroy_mutex);
}

int pthread_cond_destroy(pthread_cond_t *condition)
{
    return destroy(conditions, &condition->fsu_word, destroy_condition);
}
