/* Keys. */
#include "kit.h"
#include <pthread.h>

int pthread_key_create(pthread_key_t *key, void (*destructor)(void *))
{
    fsu_answer answer = fsu_key_create((fsu_routine *)(uintptr_t)destructor);

    if (answer.error == 0)
        *key = answer.value;
    return (int)answer.error;
}

int pthread_key_delete(pthread_key_t key)
{
    return (int)fsu_key_delete(key);
}

int pthread_setspecific(pthread_key_t key, const void *value)
{
    return (int)fsu_set_specific(key, (uintptr_t)value);
}

void *pthread_getspecific(pthread_key_t key)
{
    fsu_answer answer = fsu_get_specific(key);

    return answer.error == 0 ? (void *)(uintptr_t)answer.value : NULL;
}
