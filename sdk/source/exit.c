/* The end of the process, and what runs before it. Start code always brings this in, before picolibc's. */
#include "kit.h"

/* Of atexit, as many as POSIX asks for at least, and of global objects. */
enum { MOST_ROUTINES = 32, MOST_OBJECTS = 64 };

struct at_end {
    void (*routine)(void *argument);
    void *argument;
};

static struct at_end at_end[MOST_ROUTINES + MOST_OBJECTS];
static uint32_t at_end_count, routine_count, object_count;

void *__dso_handle;

/* A program none of whose other parts shares anything has no mutex of the library, and makes no call for it. */
#pragma weak fsu_enter
#pragma weak fsu_leave

/* Puts one after the others, where fewer than `most` of its kind are there. Answers 0, or -1 where there is no room. */
static int add(uint32_t *count, uint32_t most, struct at_end last)
{
    uint32_t mask = fsu_enter != NULL ? fsu_enter() : 0;
    int answer = -1;

    if (*count < most) {
        (*count)++;
        at_end[at_end_count++] = last;
        answer = 0;
    }
    if (fsu_leave != NULL)
        fsu_leave(mask);
    return answer;
}

/* Compilers register the destructors of global objects by this. */
int __cxa_atexit(void (*routine)(void *), void *argument, void *object)
{
    (void)object;
    return add(&object_count, MOST_OBJECTS, (struct at_end){ routine, argument });
}

static void call_plain(void *routine)
{
    ((void (*)(void))routine)();
}

int atexit(void (*routine)(void))
{
    return add(&routine_count, MOST_ROUTINES, (struct at_end){ call_plain, (void *)routine });
}

__attribute__((noreturn)) void _exit(int value)
{
    fsu_exit((uint32_t)value);
}

__attribute__((noreturn)) void _Exit(int value)
{
    _exit(value);
}

__attribute__((noreturn)) void exit(int value)
{
    while (at_end_count > 0) {
        struct at_end last = at_end[--at_end_count];
        last.routine(last.argument);
    }
    for (fsu_plain_routine **routine = fsu_layout.fini_end; routine != fsu_layout.fini;)
        (*--routine)();
    _exit(value);
}

enum { SIGNAL_ABORT = 6 };

/* Ends the process by the signal, or, where there are no signals, by the value that a shell shows for it. */
__attribute__((noreturn)) void abort(void)
{
    fsu_kill_thread(fsu_self(), SIGNAL_ABORT);
    _exit(128 + SIGNAL_ABORT);
}
