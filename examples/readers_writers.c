/* Readers and writers: many may read at once, one alone may write, and a writer that waits goes before new readers.
   Writers change two numbers and yield between; no reader sees them differ. In the trace: the 285 at the end of a
   writing wakes all who wait. */
#include <pthread.h>
#include <sched.h>
#include <stdio.h>

#define READERS 4
#define WRITERS 2
#define ROUNDS 3

static pthread_mutex_t lock = PTHREAD_MUTEX_INITIALIZER;
static pthread_cond_t may_read = PTHREAD_COND_INITIALIZER;
static pthread_cond_t may_write = PTHREAD_COND_INITIALIZER;
static int readers, writers, waiting_writers;

static int first, second;
static int readings, differences;

static void start_reading(void)
{
    pthread_mutex_lock(&lock);
    while (writers > 0 || waiting_writers > 0)
        pthread_cond_wait(&may_read, &lock);
    readers++;
    pthread_mutex_unlock(&lock);
}

static void end_reading(int differs)
{
    pthread_mutex_lock(&lock);
    readings++;
    differences += differs;
    if (--readers == 0)
        pthread_cond_signal(&may_write);
    pthread_mutex_unlock(&lock);
}

static void start_writing(void)
{
    pthread_mutex_lock(&lock);
    waiting_writers++;
    while (readers > 0 || writers > 0)
        pthread_cond_wait(&may_write, &lock);
    waiting_writers--;
    writers++;
    pthread_mutex_unlock(&lock);
}

static void end_writing(void)
{
    pthread_mutex_lock(&lock);
    writers--;
    if (waiting_writers > 0)
        pthread_cond_signal(&may_write);
    else
        pthread_cond_broadcast(&may_read);
    pthread_mutex_unlock(&lock);
}

static void *reader(void *argument)
{
    (void)argument;
    for (int round = 0; round < ROUNDS; round++) {
        start_reading();
        int seen = first;
        sched_yield();
        end_reading(seen != second);
    }
    return NULL;
}

static void *writer(void *argument)
{
    (void)argument;
    for (int round = 0; round < ROUNDS; round++) {
        start_writing();
        first++;
        sched_yield();
        second++;
        end_writing();
    }
    return NULL;
}

int main(void)
{
    pthread_t threads[READERS + WRITERS];

    for (int i = 0; i < READERS + WRITERS; i++)
        pthread_create(&threads[i], NULL, i < READERS ? reader : writer, NULL);
    for (int i = 0; i < READERS + WRITERS; i++)
        pthread_join(threads[i], NULL);
    printf("%d readings, %d of them of numbers that differ\n", readings, differences);
    printf("%d writings: %d and %d\n", WRITERS * ROUNDS, first, second);
    return 0;
}
