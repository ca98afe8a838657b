/* A pool of three workers takes tasks from a queue: a list under a mutex, with a condition variable for 'there is a
   task' and one for 'all are done'. The results come out by task and not by worker. In the trace: workers wait (282)
   until main submits (284), and the 285 at the end sends them home. */
#include <pthread.h>
#include <stdio.h>
#include <stdlib.h>

#define WORKERS 3
#define TASKS 9

struct task {
    void (*run)(int *place);
    int *place;
    struct task *next;
};

struct pool {
    pthread_mutex_t lock;
    pthread_cond_t has_task, is_idle;
    struct task *head, **tail;
    int unfinished;
    int closes;
    pthread_t workers[WORKERS];
};

static struct task *next_task(struct pool *pool)
{
    while (pool->head == NULL && !pool->closes)
        pthread_cond_wait(&pool->has_task, &pool->lock);
    struct task *task = pool->head;
    if (task != NULL) {
        pool->head = task->next;
        if (pool->head == NULL)
            pool->tail = &pool->head;
    }
    return task;
}

static void *worker(void *argument)
{
    struct pool *pool = argument;
    struct task *task;

    pthread_mutex_lock(&pool->lock);
    while ((task = next_task(pool)) != NULL) {
        pthread_mutex_unlock(&pool->lock);
        task->run(task->place);
        free(task);
        pthread_mutex_lock(&pool->lock);
        if (--pool->unfinished == 0)
            pthread_cond_signal(&pool->is_idle);
    }
    pthread_mutex_unlock(&pool->lock);
    return NULL;
}

static void open_pool(struct pool *pool)
{
    pthread_mutex_init(&pool->lock, NULL);
    pthread_cond_init(&pool->has_task, NULL);
    pthread_cond_init(&pool->is_idle, NULL);
    pool->head = NULL;
    pool->tail = &pool->head;
    pool->unfinished = pool->closes = 0;
    for (int i = 0; i < WORKERS; i++)
        pthread_create(&pool->workers[i], NULL, worker, pool);
}

static void submit(struct pool *pool, void (*run)(int *), int *place)
{
    struct task *task = malloc(sizeof *task);

    if (task == NULL)
        exit(EXIT_FAILURE);
    task->run = run;
    task->place = place;
    task->next = NULL;
    pthread_mutex_lock(&pool->lock);
    *pool->tail = task;
    pool->tail = &task->next;
    pool->unfinished++;
    pthread_cond_signal(&pool->has_task);
    pthread_mutex_unlock(&pool->lock);
}

static void wait_for_all(struct pool *pool)
{
    pthread_mutex_lock(&pool->lock);
    while (pool->unfinished > 0)
        pthread_cond_wait(&pool->is_idle, &pool->lock);
    pthread_mutex_unlock(&pool->lock);
}

static void close_pool(struct pool *pool)
{
    pthread_mutex_lock(&pool->lock);
    pool->closes = 1;
    pthread_cond_broadcast(&pool->has_task);
    pthread_mutex_unlock(&pool->lock);
    for (int i = 0; i < WORKERS; i++)
        pthread_join(pool->workers[i], NULL);
    pthread_cond_destroy(&pool->has_task);
    pthread_cond_destroy(&pool->is_idle);
    pthread_mutex_destroy(&pool->lock);
}

static void square(int *place)
{
    *place *= *place;
}

int main(void)
{
    static struct pool pool;
    int numbers[TASKS];

    open_pool(&pool);
    for (int i = 0; i < TASKS; i++) {
        numbers[i] = i + 1;
        submit(&pool, square, &numbers[i]);
    }
    wait_for_all(&pool);
    close_pool(&pool);
    for (int i = 0; i < TASKS; i++)
        printf("%d squared is %d\n", i + 1, numbers[i]);
    return 0;
}
