/* Semaphores of a mutex and a condition variable. */
#include <errno.h>
#include <semaphore.h>

/* -1 with errno where there is an error. */
static int told(int error)
{
    if (error == 0)
        return 0;
    errno = error;
    return -1;
}

int sem_init(sem_t *semaphore, int is_shared, unsigned value)
{
    if (is_shared)
        return told(ENOSYS);
    if (value > SEM_VALUE_MAX)
        return told(EINVAL);
    semaphore->fsu_value = value;
    int error = pthread_mutex_init(&semaphore->fsu_mutex, NULL);
    if (error == 0) {
        error = pthread_cond_init(&semaphore->fsu_risen, NULL);
        if (error != 0)
            pthread_mutex_destroy(&semaphore->fsu_mutex);
    }
    return told(error);
}

int sem_destroy(sem_t *semaphore)
{
    int error = pthread_cond_destroy(&semaphore->fsu_risen);

    return told(error != 0 ? error : pthread_mutex_destroy(&semaphore->fsu_mutex));
}

static void unlock(void *mutex)
{
    pthread_mutex_unlock(mutex);
}

/* Waits with the mutex, which a thread that is cancelled here gives back. */
static int wait_for_rise(sem_t *semaphore, const struct timespec *end)
{
    int error = 0;

    pthread_cleanup_push(unlock, &semaphore->fsu_mutex);
    while (error == 0 && semaphore->fsu_value == 0)
        error = end == NULL ? pthread_cond_wait(&semaphore->fsu_risen, &semaphore->fsu_mutex)
                            : pthread_cond_timedwait(&semaphore->fsu_risen, &semaphore->fsu_mutex, end);
    pthread_cleanup_pop(0);
    return error;
}

static int take(sem_t *semaphore, const struct timespec *end)
{
    int error = pthread_mutex_lock(&semaphore->fsu_mutex);

    if (error != 0)
        return told(error);
    if (semaphore->fsu_value == 0)
        error = wait_for_rise(semaphore, end);
    if (error == 0)
        semaphore->fsu_value--;
    pthread_mutex_unlock(&semaphore->fsu_mutex);
    return told(error);
}

int sem_wait(sem_t *semaphore)
{
    return take(semaphore, NULL);
}

int sem_timedwait(sem_t *restrict semaphore, const struct timespec *restrict end)
{
    return take(semaphore, end);
}

int sem_trywait(sem_t *semaphore)
{
    int error = pthread_mutex_lock(&semaphore->fsu_mutex);

    if (error != 0)
        return told(error);
    if (semaphore->fsu_value == 0)
        error = EAGAIN;
    else
        semaphore->fsu_value--;
    pthread_mutex_unlock(&semaphore->fsu_mutex);
    return told(error);
}

int sem_post(sem_t *semaphore)
{
    int error = pthread_mutex_lock(&semaphore->fsu_mutex);

    if (error != 0)
        return told(error);
    if (semaphore->fsu_value == SEM_VALUE_MAX)
        error = EOVERFLOW;
    else {
        semaphore->fsu_value++;
        pthread_cond_signal(&semaphore->fsu_risen);
    }
    pthread_mutex_unlock(&semaphore->fsu_mutex);
    return told(error);
}

int sem_getvalue(sem_t *restrict semaphore, int *restrict value)
{
    int error = pthread_mutex_lock(&semaphore->fsu_mutex);

    if (error != 0)
        return told(error);
    *value = (int)semaphore->fsu_value;
    pthread_mutex_unlock(&semaphore->fsu_mutex);
    return 0;
}
