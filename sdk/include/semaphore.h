/* Semaphores, each of a mutex and a condition variable. So a handler of a signal must not post, and no signal ends a
   wait. */
#ifndef FSU_SEMAPHORE_H
#define FSU_SEMAPHORE_H

#include <pthread.h>

#ifdef __cplusplus
extern "C" {
#endif

typedef struct {
    pthread_mutex_t fsu_mutex;
    pthread_cond_t fsu_risen;
    unsigned fsu_value;
} sem_t;

#define SEM_VALUE_MAX 65535

/* All answer 0, or -1 and set errno. */
int sem_init(sem_t *semaphore, int is_shared, unsigned value);
int sem_destroy(sem_t *semaphore);
int sem_wait(sem_t *semaphore);
int sem_trywait(sem_t *semaphore);
int sem_post(sem_t *semaphore);
int sem_getvalue(sem_t *__restrict semaphore, int *__restrict value);

/* With an end as that of pthread_cond_timedwait. */
int sem_timedwait(sem_t *__restrict semaphore, const struct timespec *__restrict end);

#ifdef __cplusplus
}
#endif

#define FSU_REFUSED_SEMAPHORE
#include <fsu_refused.h>
#endif
