/* Mutexes and condition variables: static initialisers, kinds, and the 256 numbers. */
#include "check.h"
#include <errno.h>
#include <pthread.h>

enum { MOST = 256, GUARD = 1 };

static pthread_mutex_t normal = PTHREAD_MUTEX_INITIALIZER;
static pthread_mutex_t checking = PTHREAD_ERRORCHECK_MUTEX_INITIALIZER_NP;
static pthread_mutex_t recursive = PTHREAD_RECURSIVE_MUTEX_INITIALIZER_NP;
static pthread_mutex_t many[MOST];
static pthread_cond_t changed = PTHREAD_COND_INITIALIZER, conditions[MOST + 1];
static int is_set;

static void *set(void *argument)
{
    CHECK(pthread_mutex_trylock(&normal) == EBUSY);
    CHECK(pthread_mutex_unlock(&normal) == EPERM);
    pthread_mutex_lock(&normal);
    is_set = 1;
    CHECK(pthread_cond_signal(&changed) == 0);
    pthread_mutex_unlock(&normal);
    return argument;
}

static void check_waiting(void)
{
    pthread_t thread;

    pthread_mutex_lock(&normal);
    pthread_create(&thread, NULL, set, NULL);
    sched_yield();
    while (!is_set)
        CHECK(pthread_cond_wait(&changed, &normal) == 0);
    CHECK(pthread_cond_wait(&changed, &recursive) == EPERM);
    pthread_mutex_unlock(&normal);
    pthread_join(thread, NULL);
}

static void check_kinds(void)
{
    pthread_mutexattr_t attributes;
    pthread_mutex_t mutex;
    int type;

    CHECK(pthread_mutex_lock(&checking) == 0 && pthread_mutex_lock(&checking) == EDEADLK);
    CHECK(pthread_mutex_lock(&recursive) == 0 && pthread_mutex_lock(&recursive) == 0);
    CHECK(pthread_mutex_unlock(&recursive) == 0 && pthread_mutex_destroy(&recursive) == EBUSY);
    CHECK(pthread_mutex_unlock(&recursive) == 0 && pthread_mutex_destroy(&recursive) == 0);
    CHECK(pthread_mutex_lock(&recursive) == EINVAL && pthread_mutex_destroy(&recursive) == EINVAL);
    CHECK(pthread_mutexattr_init(&attributes) == 0 && pthread_mutexattr_settype(&attributes, 3) == EINVAL);
    CHECK(pthread_mutexattr_settype(&attributes, PTHREAD_MUTEX_RECURSIVE) == 0);
    CHECK(pthread_mutexattr_gettype(&attributes, &type) == 0 && type == PTHREAD_MUTEX_RECURSIVE);
    CHECK(pthread_mutex_init(&mutex, &attributes) == 0);
    CHECK(pthread_mutex_lock(&mutex) == 0 && pthread_mutex_trylock(&mutex) == 0);
    CHECK(pthread_mutex_unlock(&mutex) == 0 && pthread_mutex_unlock(&mutex) == 0);
    CHECK(pthread_mutex_destroy(&mutex) == 0);
}

/* `normal` and `checking` have numbers, the library's own mutex has one, and a call of the program took one. */
static void check_numbers(void)
{
    int made = 0;

    CHECK(fsu_mutex_init(5, FSU_NORMAL) == 0);
    while (made < MOST && pthread_mutex_init(&many[made], NULL) == 0)
        made++;
    CHECK(made == MOST - GUARD - 3);
    many[made] = (pthread_mutex_t)PTHREAD_MUTEX_INITIALIZER;
    CHECK(pthread_mutex_lock(&many[made]) == EAGAIN);
    CHECK(pthread_mutex_destroy(&many[0]) == 0);
    CHECK(pthread_mutex_lock(&many[made]) == 0);
    for (made = 0; pthread_cond_init(&conditions[made], NULL) == 0;)
        made++;
    CHECK(made == MOST - 1);
    CHECK(pthread_cond_destroy(&changed) == 0);
    CHECK(pthread_cond_signal(&changed) == EINVAL);
    CHECK(pthread_cond_broadcast(&conditions[made]) == 0);
}

int main(void)
{
    check_waiting();
    check_kinds();
    check_numbers();
    return 0;
}
