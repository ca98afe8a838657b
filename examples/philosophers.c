/* Five philosophers think and eat. A hungry one eats when neither neighbour does, and else waits for a condition
   variable of its own, until a neighbour puts its forks down. In the trace: such a wait is the call 282 of a thread,
   and the 284 of a neighbour ends it. */
#include <pthread.h>
#include <sched.h>
#include <stdio.h>

#define PHILOSOPHERS 5
#define MEALS 3

enum state { THINKS, IS_HUNGRY, EATS };

static pthread_mutex_t table = PTHREAD_MUTEX_INITIALIZER;
static pthread_cond_t may_eat[PHILOSOPHERS];
static enum state states[PHILOSOPHERS];
static int meals[PHILOSOPHERS];
static int quarrels;

static int left_of(int i)
{
    return (i + PHILOSOPHERS - 1) % PHILOSOPHERS;
}

static int right_of(int i)
{
    return (i + 1) % PHILOSOPHERS;
}

static void try_to_eat(int i)
{
    if (states[i] == IS_HUNGRY && states[left_of(i)] != EATS && states[right_of(i)] != EATS) {
        states[i] = EATS;
        pthread_cond_signal(&may_eat[i]);
    }
}

static void take_forks(int i)
{
    pthread_mutex_lock(&table);
    states[i] = IS_HUNGRY;
    try_to_eat(i);
    while (states[i] != EATS)
        pthread_cond_wait(&may_eat[i], &table);
    if (states[left_of(i)] == EATS || states[right_of(i)] == EATS)
        quarrels++;
    meals[i]++;
    pthread_mutex_unlock(&table);
}

static void put_forks(int i)
{
    pthread_mutex_lock(&table);
    states[i] = THINKS;
    try_to_eat(left_of(i));
    try_to_eat(right_of(i));
    pthread_mutex_unlock(&table);
}

static void *philosopher(void *argument)
{
    int i = *(int *)argument;

    for (int meal = 0; meal < MEALS; meal++) {
        take_forks(i);
        sched_yield();
        put_forks(i);
    }
    return NULL;
}

int main(void)
{
    pthread_t threads[PHILOSOPHERS];
    int numbers[PHILOSOPHERS];

    for (int i = 0; i < PHILOSOPHERS; i++)
        pthread_cond_init(&may_eat[i], NULL);
    for (int i = 0; i < PHILOSOPHERS; i++) {
        numbers[i] = i;
        pthread_create(&threads[i], NULL, philosopher, &numbers[i]);
    }
    for (int i = 0; i < PHILOSOPHERS; i++)
        pthread_join(threads[i], NULL);
    for (int i = 0; i < PHILOSOPHERS; i++)
        printf("philosopher %d ate %d times\n", i, meals[i]);
    printf("neighbours ate together %d times\n", quarrels);
    return 0;
}
