/* Attributes, semaphores, pthread_once and routines at the end of a thread. */
#include "check.h"
#include <errno.h>
#include <pthread.h>
#include <semaphore.h>
#include <stdio.h>

static sem_t semaphore;
static pthread_once_t once = PTHREAD_ONCE_INIT;
static int runs, passed;

static void *say(void *argument)
{
    printf("%s\n", (char *)argument);
    return NULL;
}

static void check_priorities(void)
{
    pthread_attr_t attributes;
    struct sched_param parameters = { 20 };
    pthread_t low, high;
    int value;

    pthread_attr_init(&attributes);
    CHECK(pthread_attr_setschedparam(&attributes, &parameters) == 0);
    CHECK(pthread_attr_setschedpolicy(&attributes, SCHED_FIFO) == 0);
    CHECK(pthread_attr_getschedpolicy(&attributes, &value) == 0 && value == SCHED_FIFO);
    CHECK(pthread_attr_setschedpolicy(&attributes, 3) == EINVAL);
    CHECK(pthread_attr_setscope(&attributes, PTHREAD_SCOPE_SYSTEM) == ENOTSUP);
    CHECK(pthread_attr_setscope(&attributes, PTHREAD_SCOPE_PROCESS) == 0);
    CHECK(pthread_create(&low, &attributes, say, "inherits main's priority: runs when main waits") == 0);
    CHECK(pthread_attr_setinheritsched(&attributes, PTHREAD_EXPLICIT_SCHED) == 0);
    CHECK(pthread_create(&high, &attributes, say, "priority 20: runs at once") == 0);
    say("main");
    pthread_join(low, NULL);
    pthread_join(high, NULL);
    parameters.sched_priority = 32;
    CHECK(pthread_attr_setschedparam(&attributes, &parameters) == EINVAL);
    CHECK(sched_get_priority_min(SCHED_RR) == 0 && sched_get_priority_max(SCHED_RR) == 31);
}

static void check_changes_of_priority(void)
{
    struct sched_param parameters = { 9 };
    pthread_t thread;
    int policy;

    CHECK(pthread_create(&thread, NULL, say, "raised above main: runs at once") == 0);
    CHECK(pthread_setschedparam(thread, SCHED_RR, &parameters) == 0);
    say("main again");
    CHECK(pthread_getschedparam(thread, &policy, &parameters) == ESRCH);
    CHECK(pthread_setschedprio(thread, 9) == ESRCH);
    CHECK(pthread_join(thread, NULL) == 0);
    CHECK(pthread_setschedparam(pthread_self(), 3, &parameters) == EINVAL);
    CHECK(pthread_setschedprio(pthread_self(), 32) == EINVAL);
    CHECK(pthread_setschedparam(pthread_self(), SCHED_FIFO, &parameters) == 0);
    CHECK(pthread_setschedprio(pthread_self(), 8) == 0);
    CHECK(pthread_getschedparam(pthread_self(), &policy, &parameters) == 0);
    CHECK(policy == SCHED_FIFO && parameters.sched_priority == 8);
    CHECK(pthread_setschedparam(pthread_self(), SCHED_OTHER, &parameters) == 0);
}

static void *wait_for_post(void *argument)
{
    CHECK(sem_wait(&semaphore) == 0);
    passed++;
    return argument;
}

static void check_semaphores(void)
{
    pthread_t threads[2];
    int value;

    CHECK(sem_init(&semaphore, 0, SEM_VALUE_MAX + 1) == -1 && errno == EINVAL);
    CHECK(sem_init(&semaphore, 1, 0) == -1 && errno == ENOSYS);
    CHECK(sem_init(&semaphore, 0, 1) == 0);
    CHECK(sem_trywait(&semaphore) == 0 && sem_trywait(&semaphore) == -1 && errno == EAGAIN);
    for (int i = 0; i < 2; i++)
        pthread_create(&threads[i], NULL, wait_for_post, NULL);
    sched_yield();
    CHECK(passed == 0 && sem_post(&semaphore) == 0);
    sched_yield();
    CHECK(passed == 1 && sem_post(&semaphore) == 0);
    for (int i = 0; i < 2; i++)
        pthread_join(threads[i], NULL);
    CHECK(sem_getvalue(&semaphore, &value) == 0 && value == 0);
    CHECK(sem_destroy(&semaphore) == 0 && sem_wait(&semaphore) == -1 && errno == EINVAL);
    CHECK(sem_init(&semaphore, 0, SEM_VALUE_MAX) == 0 && sem_post(&semaphore) == -1 && errno == EOVERFLOW);
}

static void run(void)
{
    sched_yield();
    runs++;
}

static void *ask_once(void *argument)
{
    CHECK(pthread_once(&once, run) == 0 && runs == 1);
    return argument;
}

static void check_once(void)
{
    pthread_t threads[3];

    for (int i = 0; i < 3; i++)
        pthread_create(&threads[i], NULL, ask_once, NULL);
    for (int i = 0; i < 3; i++)
        pthread_join(threads[i], NULL);
    CHECK(pthread_once(&once, run) == 0 && runs == 1);
}

static void tell(void *argument)
{
    printf("cleanup: %s\n", (char *)argument);
}

static void *end_early(void *argument)
{
    pthread_cleanup_push(tell, "first pushed, last run");
    pthread_cleanup_push(tell, "popped without a run");
    pthread_cleanup_pop(0);
    pthread_cleanup_push(tell, "popped with a run");
    pthread_cleanup_pop(1);
    pthread_cleanup_push(tell, "last pushed, first run");
    pthread_exit(argument);
    pthread_cleanup_pop(0);
    pthread_cleanup_pop(0);
    return NULL;
}

static void check_exits(void)
{
    pthread_t thread;
    void *value;

    pthread_create(&thread, NULL, end_early, &value);
    CHECK(pthread_join(thread, &value) == 0 && value == (void *)&value);
    CHECK(pthread_join(pthread_self(), NULL) == EDEADLK && pthread_join(40, NULL) == ESRCH);
    CHECK(pthread_equal(pthread_self(), 1) && !pthread_equal(pthread_self(), 2));
}

static void *say_last(void *argument)
{
    sched_yield();
    return say(argument);
}

int main(void)
{
    pthread_t thread;

    check_priorities();
    check_changes_of_priority();
    check_semaphores();
    check_once();
    check_exits();
    pthread_create(&thread, NULL, say_last, "the process outlives main");
    pthread_exit(NULL);
}
