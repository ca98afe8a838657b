/* Functions whose calls are to come: each answers ENOSYS and changes nothing, or does what POSIX says. */
#include "check.h"
#include <errno.h>
#include <pthread.h>
#include <semaphore.h>
#include <signal.h>
#include <stdint.h>
#include <unistd.h>

/* Of functions that answer an error, and of those that answer -1 and set errno. */
static int is_missing(int error)
{
    return error == ENOSYS;
}

static int has_failed(int answer, int error)
{
    return answer == -1 && errno == error;
}

static void check_keys(void)
{
    pthread_key_t key = 1000;
    int value;

    if (is_missing(pthread_key_create(&key, NULL))) {
        CHECK(key == 1000 && pthread_setspecific(0, &value) == ENOSYS && pthread_getspecific(0) == NULL);
        return;
    }
    CHECK(pthread_getspecific(key) == NULL && pthread_setspecific(key, &value) == 0);
    CHECK(pthread_getspecific(key) == &value && pthread_key_delete(key) == 0);
    CHECK(pthread_key_delete(key) == EINVAL);
}

static void *wait_for_post(void *semaphore)
{
    sem_wait(semaphore);
    return NULL;
}

/* A thread that is cancelled in sem_wait leaves the semaphore to others. */
static void check_cancelled_wait(void)
{
    pthread_t thread;
    sem_t semaphore;
    void *value;

    sem_init(&semaphore, 0, 0);
    pthread_create(&thread, NULL, wait_for_post, &semaphore);
    sched_yield();
    CHECK(pthread_cancel(thread) == 0 && pthread_join(thread, &value) == 0 && value == PTHREAD_CANCELED);
    CHECK(sem_post(&semaphore) == 0 && sem_trywait(&semaphore) == 0);
}

static void check_cancellation(void)
{
    int old = 1000;

    if (is_missing(pthread_setcancelstate(PTHREAD_CANCEL_DISABLE, &old))) {
        CHECK(old == 1000 && pthread_cancel(pthread_self()) == ENOSYS);
        return;
    }
    check_cancelled_wait();
    CHECK(old == PTHREAD_CANCEL_ENABLE && pthread_cancel(pthread_self()) == 0);
    CHECK(pthread_setcanceltype(PTHREAD_CANCEL_DEFERRED, &old) == 0 && old == PTHREAD_CANCEL_DEFERRED);
    pthread_testcancel();
}

/* Protocols are refused as attributes that the call does not know. */
static void check_protocols(void)
{
    pthread_mutexattr_t attributes;
    pthread_mutex_t mutex;
    int value;

    pthread_mutexattr_init(&attributes);
    CHECK(pthread_mutexattr_setprotocol(&attributes, PTHREAD_PRIO_PROTECT) == 0);
    CHECK(pthread_mutexattr_getprotocol(&attributes, &value) == 0 && value == PTHREAD_PRIO_PROTECT);
    CHECK(pthread_mutexattr_setprioceiling(&attributes, 32) == EINVAL);
    CHECK(pthread_mutexattr_setprioceiling(&attributes, 30) == 0);
    int error = pthread_mutex_init(&mutex, &attributes);
    CHECK(error == 0 || error == EINVAL);
    CHECK(error != 0 || (pthread_mutex_getprioceiling(&mutex, &value) == 0 && value == 30));
}

static void check_sets(void)
{
    sigset_t set;

    CHECK(sigemptyset(&set) == 0 && sigaddset(&set, SIGUSR1) == 0);
    CHECK(sigismember(&set, SIGUSR1) == 1 && sigismember(&set, SIGUSR2) == 0);
    CHECK(sigdelset(&set, SIGUSR1) == 0 && set == 0 && sigaddset(&set, 32) == -1 && errno == EINVAL);
    CHECK(sigfillset(&set) == 0 && sigismember(&set, SIGSYS) == 1);
}

static volatile int handled;

static void handle(int signal)
{
    handled = signal;
}

static void *give_mask(void *mask)
{
    pthread_sigmask(SIG_BLOCK, NULL, mask);
    return NULL;
}

/* Once there is a handler the library masks signals while it makes a thread, and the thread does not inherit that. */
static void check_handler(void)
{
    sigset_t mask = 1;
    pthread_t thread;

    CHECK(signal(SIGUSR2, handle) == SIG_DFL && raise(SIGUSR2) == 0 && handled == SIGUSR2);
    pthread_create(&thread, NULL, give_mask, &mask);
    CHECK(pthread_join(thread, NULL) == 0 && mask == 0);
}

static void check_signals(void)
{
    struct sigaction action = { .sa_handler = SIG_IGN }, old;
    sigset_t set = 1u << SIGUSR1, mask;
    int number;

    action.sa_flags = SA_RESTART;
    CHECK(has_failed(sigaction(SIGUSR1, &action, NULL), ENOTSUP));
    action.sa_flags = 0;
    CHECK(has_failed(sigaction(40, &action, NULL), EINVAL));
    CHECK(sigaction(SIGUSR1, &action, &old) == 0);
    check_handler();
    CHECK(old.sa_handler == SIG_DFL && signal(SIGUSR1, SIG_DFL) == SIG_IGN);
    CHECK(pthread_sigmask(SIG_BLOCK, &set, &mask) == 0 && mask == 0);
    CHECK(pthread_sigmask(SIG_SETMASK, NULL, &mask) == 0 && mask == set);
    CHECK(raise(SIGUSR1) == 0);
    CHECK(sigpending(&mask) == 0 && mask == set && sigwait(&set, &number) == 0 && number == SIGUSR1);
    CHECK(sigpending(&mask) == 0 && mask == 0);
    set = 0;
    CHECK(sigwait(&set, &number) == EINVAL);
    CHECK(kill(getpid(), 0) == 0 && has_failed(kill(2, 0), ESRCH));
}

int main(void)
{
    check_keys();
    check_cancellation();
    check_protocols();
    check_sets();
    check_signals();
    CHECK(read(0, NULL, 0) == 0 || errno == ENOSYS);
    CHECK(write(3, "x", 1) == -1 && errno == EBADF);
    return 0;
}
