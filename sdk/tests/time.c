/* Sleeping, the alarm, clocks and waits with an end. The journal that sdk/check writes brings ticks where all threads
   wait: 154, the signal 10, 25 more, the signal 10, and 154 more. */
#include "check.h"
#include <errno.h>
#include <pthread.h>
#include <semaphore.h>
#include <signal.h>
#include <time.h>
#include <unistd.h>

enum { NANOSECONDS_A_TICK = 10000000 };

static const struct timespec none, wrong = { 0, 1000000000 };
static pthread_cond_t condition = PTHREAD_COND_INITIALIZER;
static pthread_mutex_t mutex = PTHREAD_MUTEX_INITIALIZER;
static volatile int handled, is_signalled;

static int has_failed(int answer, int error)
{
    return answer == -1 && errno == error;
}

static struct timespec time_at(uint32_t ticks)
{
    return (struct timespec){ .tv_sec = ticks / 100, .tv_nsec = (long)(ticks % 100) * NANOSECONDS_A_TICK };
}

/* Whether so many ticks have come. */
static int is_now(uint32_t ticks)
{
    struct timespec now, due = time_at(ticks);

    return clock_gettime(CLOCK_MONOTONIC, &now) == 0 && now.tv_sec == due.tv_sec && now.tv_nsec == due.tv_nsec;
}

static void handle(int signal)
{
    handled = signal;
}

static void check_clocks(void)
{
    struct timespec resolution;

    CHECK(is_now(0) && clock() == 0);
    CHECK(has_failed(clock_gettime((clockid_t)99, &resolution), EINVAL));
    CHECK(clock_getres(CLOCK_REALTIME, &resolution) == 0 && resolution.tv_nsec == NANOSECONDS_A_TICK);
}

static void check_sleeping(void)
{
    static const struct timespec least = { 0, 1 }, past = { -1, 0 };

    CHECK(usleep(25000) == 0 && is_now(3));
    CHECK(nanosleep(&least, NULL) == 0 && is_now(4));
    CHECK(nanosleep(&none, NULL) == 0 && usleep(0) == 0 && sleep(0) == 0 && is_now(4));
    CHECK(has_failed(nanosleep(&wrong, NULL), EINVAL) && has_failed(nanosleep(&past, NULL), EINVAL));
    CHECK(sleep(1) == 0 && is_now(104));
}

static void check_interrupted_sleeps(void)
{
    static const struct timespec second = { 1, 0 };
    struct timespec left = none;

    signal(SIGUSR1, handle);
    CHECK(sleep(2) == 2 && handled == SIGUSR1 && is_now(154));
    CHECK(has_failed(nanosleep(&second, &left), EINTR) && is_now(179));
    CHECK(left.tv_sec == 0 && left.tv_nsec == 75 * NANOSECONDS_A_TICK);
}

static void check_alarm(void)
{
    signal(SIGALRM, handle);
    CHECK(alarm(2) == 0 && alarm(1) == 2);
    CHECK(sleep(3) == 2 && handled == SIGALRM && is_now(279) && alarm(0) == 0);
    CHECK(alarm(1) == 0 && usleep(500000) == 0 && alarm(0) == 1 && is_now(329));
}

static void *signal_later(void *argument)
{
    usleep(10000);
    pthread_mutex_lock(&mutex);
    is_signalled = 1;
    pthread_cond_signal(&condition);
    pthread_mutex_unlock(&mutex);
    return argument;
}

static void check_conditions(void)
{
    struct timespec end = time_at(331);
    pthread_t thread;

    pthread_mutex_lock(&mutex);
    CHECK(pthread_cond_timedwait(&condition, &mutex, &wrong) == EINVAL);
    CHECK(pthread_cond_timedwait(&condition, &mutex, &none) == ETIMEDOUT && is_now(329));
    CHECK(pthread_cond_timedwait(&condition, &mutex, &end) == ETIMEDOUT && is_now(331));
    CHECK(pthread_cond_timedwait(&condition, &mutex, &end) == ETIMEDOUT && is_now(331));
    end = time_at(1000);
    CHECK(pthread_create(&thread, NULL, signal_later, NULL) == 0);
    while (!is_signalled)
        CHECK(pthread_cond_timedwait(&condition, &mutex, &end) == 0);
    CHECK(pthread_mutex_unlock(&mutex) == 0 && pthread_join(thread, NULL) == 0 && is_now(332));
}

static void check_semaphores(void)
{
    struct timespec end = time_at(333);
    sem_t semaphore;

    sem_init(&semaphore, 0, 1);
    CHECK(sem_timedwait(&semaphore, &none) == 0);
    CHECK(has_failed(sem_timedwait(&semaphore, &none), ETIMEDOUT) && is_now(332));
    CHECK(has_failed(sem_timedwait(&semaphore, &end), ETIMEDOUT) && is_now(333));
    CHECK(has_failed(sem_timedwait(&semaphore, &wrong), EINVAL) && sem_post(&semaphore) == 0);
}

static void check_seconds(void)
{
    time_t seconds = 0;

    CHECK(time(NULL) == 3 && time(&seconds) == 3 && seconds == 3);
    CHECK(clock() == CLOCKS_PER_SEC * 333 / 100);
}

int main(void)
{
    check_clocks();
    check_sleeping();
    check_interrupted_sleeps();
    check_alarm();
    check_conditions();
    check_semaphores();
    check_seconds();
    return 0;
}
