/* Threads: stacks that are used again, sizes, and the end of a stack. */
#include "check.h"
#include <errno.h>
#include <pthread.h>
#include <stdio.h>

enum { MANY = 150, LARGE = 700000 };

static void *where(void *argument)
{
    (void)argument;
    return __builtin_frame_address(0);
}

static pthread_t make(const pthread_attr_t *attributes, void *(*routine)(void *), void *argument)
{
    pthread_t thread = 0;

    CHECK(pthread_create(&thread, attributes, routine, argument) == 0);
    return thread;
}

static void check_joined(void)
{
    void *first, *value;

    pthread_join(make(NULL, where, NULL), &first);
    for (int i = 0; i < MANY; i++) {
        pthread_join(make(NULL, where, NULL), &value);
        CHECK(value == first);
    }
}

static void check_detached(void)
{
    pthread_attr_t attributes;
    pthread_t thread;

    pthread_attr_init(&attributes);
    CHECK(pthread_attr_setdetachstate(&attributes, PTHREAD_CREATE_DETACHED) == 0);
    CHECK(pthread_attr_setstacksize(&attributes, LARGE) == 0);
    for (int i = 0; i < MANY / 10; i++) {
        thread = make(&attributes, where, NULL);
        CHECK(pthread_join(thread, NULL) == EINVAL && pthread_detach(thread) == EINVAL);
        sched_yield();
        CHECK(pthread_join(thread, NULL) == ESRCH);
    }
    for (int i = 0; i < MANY / 10; i++) {
        thread = make(NULL, where, NULL);
        CHECK(pthread_detach(thread) == 0);
        sched_yield();
    }
}

static void *wait_a_turn(void *argument)
{
    sched_yield();
    return argument;
}

static void check_sizes(void)
{
    pthread_attr_t attributes;
    pthread_t thread, other;
    size_t size;

    pthread_attr_init(&attributes);
    CHECK(pthread_attr_setstacksize(&attributes, PTHREAD_STACK_MIN - 1) == EINVAL);
    CHECK(pthread_attr_setstacksize(&attributes, 100000000) == EINVAL);
    CHECK(pthread_attr_setstacksize(&attributes, LARGE) == 0);
    CHECK(pthread_attr_getstacksize(&attributes, &size) == 0 && size == LARGE);
    thread = make(&attributes, wait_a_turn, NULL);
    CHECK(pthread_create(&other, &attributes, wait_a_turn, NULL) == EAGAIN);
    other = make(NULL, wait_a_turn, NULL);
    pthread_join(thread, NULL);
    pthread_join(other, NULL);
}

static void check_most(void)
{
    pthread_t threads[PTHREAD_THREADS_MAX];
    int made = 1;

    while (made < PTHREAD_THREADS_MAX && pthread_create(&threads[made], NULL, wait_a_turn, NULL) == 0)
        made++;
    CHECK(made == PTHREAD_THREADS_MAX);
    CHECK(pthread_create(&threads[0], NULL, wait_a_turn, NULL) == EAGAIN);
    while (--made > 0)
        CHECK(pthread_join(threads[made], NULL) == 0);
}

static void *print(void *argument)
{
    printf("%s %f\n", (char *)argument, 0.5);
    return NULL;
}

/* Writes to some 200 bytes of stack more than it is asked for. */
__attribute__((noinline)) static int fill(int length, volatile char *above)
{
    volatile char bytes[256];

    for (unsigned i = 0; i < sizeof bytes; i++)
        bytes[i] = *above;
    return length < 0 ? bytes[0] : fill(length - (int)sizeof bytes, bytes) + bytes[1];
}

static void *fill_all(void *argument)
{
    volatile char one = 1;

    fill(PTHREAD_STACK_MIN, &one);
    return argument;
}

static void check_ends(void)
{
    pthread_attr_t attributes;

    pthread_attr_init(&attributes);
    CHECK(pthread_attr_setstacksize(&attributes, PTHREAD_STACK_MIN) == 0);
    pthread_join(make(&attributes, print, "the least stack is enough to print"), NULL);
    pthread_join(make(&attributes, fill_all, NULL), NULL);
    pthread_join(make(&attributes, print, "and is used again"), NULL);
}

int main(void)
{
    check_joined();
    check_detached();
    check_sizes();
    check_most();
    check_ends();
    return 0;
}
