/* Two producers and one consumer share a buffer of four places: one semaphore counts the free places, one the full
   ones, and a mutex guards the buffer. The consumer finds the items of each producer in their order. In the trace:
   a wait for a semaphore that is 0 is a wait for a condition variable (282), and a post signals it (284). */
#include <pthread.h>
#include <semaphore.h>
#include <stdio.h>

#define PLACES 4
#define PRODUCERS 2
#define ITEMS 6

struct item {
    int producer;
    int number;
};

static struct item buffer[PLACES];
static int next_in, next_out;
static sem_t free_places, full_places;
static pthread_mutex_t lock = PTHREAD_MUTEX_INITIALIZER;

static void put(struct item item)
{
    sem_wait(&free_places);
    pthread_mutex_lock(&lock);
    buffer[next_in] = item;
    next_in = (next_in + 1) % PLACES;
    pthread_mutex_unlock(&lock);
    sem_post(&full_places);
}

static struct item get(void)
{
    sem_wait(&full_places);
    pthread_mutex_lock(&lock);
    struct item item = buffer[next_out];
    next_out = (next_out + 1) % PLACES;
    pthread_mutex_unlock(&lock);
    sem_post(&free_places);
    return item;
}

static void *produce(void *argument)
{
    struct item item = { *(int *)argument, 0 };

    for (; item.number < ITEMS; item.number++)
        put(item);
    return NULL;
}

static void *consume(void *argument)
{
    int *seen = argument;
    int in_order = 1;

    for (int i = 0; i < PRODUCERS * ITEMS; i++) {
        struct item item = get();
        in_order = in_order && item.number == seen[item.producer];
        seen[item.producer]++;
    }
    printf("the consumer got %d items, %s\n", PRODUCERS * ITEMS, in_order ? "each producer's in order" : "mixed up");
    return NULL;
}

int main(void)
{
    pthread_t producers[PRODUCERS], consumer;
    int numbers[PRODUCERS], seen[PRODUCERS] = { 0 };

    sem_init(&free_places, 0, PLACES);
    sem_init(&full_places, 0, 0);
    pthread_create(&consumer, NULL, consume, seen);
    for (int i = 0; i < PRODUCERS; i++) {
        numbers[i] = i;
        pthread_create(&producers[i], NULL, produce, &numbers[i]);
    }
    for (int i = 0; i < PRODUCERS; i++)
        pthread_join(producers[i], NULL);
    pthread_join(consumer, NULL);
    for (int i = 0; i < PRODUCERS; i++)
        printf("producer %d made %d of them\n", i, seen[i]);
    sem_destroy(&free_places);
    sem_destroy(&full_places);
    return 0;
}
