/* Threads with a block of thread-local storage each. The stack of each has a pattern at its lower end. */
#include "kit.h"

void fsu_thread_entry(void);

/* The calling thread's record; null in the main thread. */
static __thread struct fsu_thread *this_thread;

enum { STORAGE_ALIGNMENT = 64, PATTERN_WORDS = 32, PATTERN = 0x5af0c3a5 };

static char *align_down(char *address, uint32_t alignment)
{
    return (char *)((uintptr_t)address & ~(uintptr_t)(alignment - 1));
}

uint32_t fsu_storage_size(void)
{
    return fsu_layout.tls_size + STORAGE_ALIGNMENT + (uint32_t)sizeof(struct fsu_thread) + STACK_ALIGNMENT
        + PATTERN_WORDS * (uint32_t)sizeof(uint32_t);
}

static char *storage_at(char *low, uint32_t size)
{
    return align_down(low + size - fsu_layout.tls_size, STORAGE_ALIGNMENT);
}

struct fsu_thread *fsu_record_at(char *low, uint32_t size)
{
    return (struct fsu_thread *)align_down(storage_at(low, size) - sizeof(struct fsu_thread), STACK_ALIGNMENT);
}

struct fsu_thread *fsu_prepare(fsu_routine *routine, uint32_t argument, char *low, uint32_t size)
{
    struct fsu_thread *thread = fsu_record_at(low, size);

    for (uint32_t i = 0; i < PATTERN_WORDS; i++)
        ((uint32_t *)low)[i] = PATTERN;
    *thread = (struct fsu_thread){ .storage = storage_at(low, size), .routine = routine, .argument = argument,
                                   .low = low, .size = size };
    fsu_fill_storage(thread->storage);
    return thread;
}

fsu_answer fsu_start(struct fsu_thread *thread, uint32_t attributes)
{
    return fsu_call(256, (uintptr_t)fsu_thread_entry, (uintptr_t)thread, (uintptr_t)thread, attributes);
}

fsu_answer fsu_create_with_storage(fsu_routine *routine, uint32_t argument, void *low, uint32_t size,
                                   uint32_t attributes)
{
    if ((uintptr_t)low % STACK_ALIGNMENT != 0 || size % STACK_ALIGNMENT != 0 || size <= fsu_storage_size())
        return (fsu_answer){ FSU_EINVAL, 0 };
    return fsu_start(fsu_prepare(routine, argument, low, size), attributes);
}

void fsu_check_stack(struct fsu_thread *thread, fsu_tid number)
{
    if (thread->is_checked)
        return;
    thread->is_checked = 1;
    for (uint32_t i = 0; i < PATTERN_WORDS; i++)
        if (((uint32_t *)thread->low)[i] != PATTERN) {
            fsu_complain("thread % wrote beyond the end of its stack of % bytes, its storage included", number,
                         thread->size);
            return;
        }
}

void fsu_end_thread(uint32_t value)
{
    if (this_thread != NULL)
        fsu_check_stack(this_thread, fsu_self());
    fsu_exit_thread(value);
}

/* entry.S goes on here, with gp and tp set. */
__attribute__((noreturn)) void fsu_thread_main(struct fsu_thread *thread)
{
    this_thread = thread;
    if (thread->mask != 0)
        fsu_mask(FSU_SET, thread->mask);
    fsu_end_thread(thread->routine(thread->argument));
}
