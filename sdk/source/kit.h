/* What the parts of the kit share. */
#ifndef KIT_H
#define KIT_H

#include <fsu.h>
#include <stddef.h>

typedef void fsu_plain_routine(void);

/* layout.S. By symbols of their own C would take for granted that no size is 0 and no two addresses are equal. */
extern const struct fsu_layout {
    char *tls_start;            /* what thread-local storage begins with: so many bytes from here, */
    uint32_t tls_filled;
    uint32_t tls_size;          /* and zeros up to this size */
    fsu_plain_routine **preinit, **preinit_end, **init, **init_end, **fini, **fini_end;
    char *stacks, *stacks_end;  /* where the stacks of new threads lie */
} fsu_layout;

enum { STACK_ALIGNMENT = 16 };

/* What stands at the upper end of the stack of a thread that has storage. entry.S reads the first word. */
struct fsu_thread {
    char *storage;              /* its block of thread-local variables */
    fsu_routine *routine;
    uint32_t argument;
    char *low;                  /* the lowest byte of its stack */
    uint32_t size;              /* of its stack */
    uint32_t mask;              /* what fsu_enter answered its creator: it begins with the mask that came with it */
    int is_checked;             /* whether the end of its stack was looked at */
};

/* Makes a block of thread-local variables what it is at the start of a thread. */
void fsu_fill_storage(char *storage);

/* The record of a thread with the stack of `size` bytes from `low` on: to find it, to fill it in for a new thread, and
   to make that thread. */
struct fsu_thread *fsu_record_at(char *low, uint32_t size);
struct fsu_thread *fsu_prepare(fsu_routine *routine, uint32_t argument, char *low, uint32_t size);
fsu_answer fsu_start(struct fsu_thread *thread, uint32_t attributes);

/* Looks once whether a thread has written beyond its stack, and says so on descriptor 2. */
void fsu_check_stack(struct fsu_thread *thread, fsu_tid number);

/* Ends the calling thread, and looks at its stack. */
void fsu_end_thread(uint32_t value) __attribute__((noreturn));

/* What the library shares is changed between these two alone: under its own mutex, and with signals masked once
   sigaction was given a handler. Enter answers the mask, for leave. */
enum { FSU_GUARD = 255 };
uint32_t fsu_enter(void);
void fsu_leave(uint32_t mask);
void fsu_handlers_come(void);

/* Writes 'fsu: ' and a text with two numbers in it, as one line on descriptor 2: each % stands for the next number. */
void fsu_complain(const char *text, uint32_t first, uint32_t second);

#endif
