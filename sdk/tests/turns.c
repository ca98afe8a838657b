/* The library where the clock takes the processor from threads at any instruction, also in its own parts: threads make
   threads, add to what they share under a mutex, run a routine once and take turns by a semaphore. sdk/check runs it with
   a tick each 11 instructions, and with turns of one tick. */
#include "check.h"
#include <pthread.h>
#include <semaphore.h>

enum { THREADS = 4, ROUNDS = 12 };

static pthread_mutex_t mutex = PTHREAD_MUTEX_INITIALIZER;
static pthread_once_t once = PTHREAD_ONCE_INIT;
static sem_t semaphore;
static volatile uint32_t counted, once_run, inside, ended;

static void run_once(void)
{
    once_run++;
}

static void add(volatile uint32_t *number)
{
    pthread_mutex_lock(&mutex);
    (*number)++;
    pthread_mutex_unlock(&mutex);
}

static void *count(void *argument)
{
    add(&counted);
    return argument;
}

static void take_turn(void)
{
    sem_wait(&semaphore);
    CHECK(inside++ == 0);
    inside--;
    sem_post(&semaphore);
}

static void *work(void *argument)
{
    void *value;
    pthread_t thread;

    pthread_once(&once, run_once);
    for (uint32_t round = 0; round < ROUNDS; round++) {
        CHECK(pthread_create(&thread, NULL, count, argument) == 0);
        take_turn();
        CHECK(pthread_join(thread, &value) == 0 && value == argument);
        pthread_mutex_t own = PTHREAD_MUTEX_INITIALIZER;
        CHECK(pthread_mutex_lock(&own) == 0 && pthread_mutex_unlock(&own) == 0 && pthread_mutex_destroy(&own) == 0);
    }
    add(&ended);
    return NULL;
}

int main(void)
{
    pthread_t threads[THREADS];

    sem_init(&semaphore, 0, 1);
    for (uint32_t i = 0; i < THREADS; i++)
        CHECK(pthread_create(&threads[i], NULL, work, &semaphore) == 0);
    for (uint32_t i = 0; i < THREADS; i++)
        CHECK(pthread_join(threads[i], NULL) == 0);
    CHECK(once_run == 1 && ended == THREADS && counted == THREADS * ROUNDS);
    return 0;
}
