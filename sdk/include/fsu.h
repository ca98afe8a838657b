/* The calls of fsu_replay, one inline function each, for C and C++. docs/MACHINE.md tells what each does and when
   it refuses. A call with an error alone answers it, 0 for none; one that also has a value answers both.
   Each call sets a0 to a3, those that it does not use to 0, so that a trace shows no leftovers.
   After 'to come' stand calls that the program does not make yet: each answers FSU_ENOSYS and does nothing. */
#ifndef FSU_H
#define FSU_H

#include <stdint.h>

#ifdef __cplusplus
extern "C" {
#endif

/* Errors, with the numbers of Linux. */
enum {
    FSU_EPERM = 1, FSU_ESRCH = 3, FSU_EINTR = 4, FSU_EBADF = 9, FSU_EAGAIN = 11, FSU_EFAULT = 14,
    FSU_EBUSY = 16, FSU_EINVAL = 22, FSU_EDEADLK = 35, FSU_ENOSYS = 38, FSU_ETIMEDOUT = 110,
};

/* Attributes of a new thread, joined by |: 0 for one that is joined and takes its creator's priority. */
enum { FSU_OTHER = 0, FSU_FIFO = 1, FSU_RR = 2 };
#define FSU_DETACHED (1u << 16)
#define FSU_PRIORITY(policy, priority) (1u << 17 | (policy) << 8 | (priority))

typedef uint32_t fsu_tid;                       /* the number of a thread, 1 to 64 */
typedef uint32_t fsu_error;                     /* 0, or one of the errors */
typedef struct { fsu_error error; uint32_t value; } fsu_answer;
typedef uint32_t fsu_routine(uint32_t argument);  /* what it returns is the thread's value */
typedef struct { uint8_t bytes[4096]; } __attribute__((aligned(16))) fsu_stack;

#define FSU_INLINE static inline __attribute__((always_inline))

FSU_INLINE fsu_answer fsu_call(uint32_t number, uint32_t a, uint32_t b, uint32_t d, uint32_t e)
{
    register uint32_t a0 __asm__("a0") = a;
    register uint32_t a1 __asm__("a1") = b;
    register uint32_t a2 __asm__("a2") = d;
    register uint32_t a3 __asm__("a3") = e;
    register uint32_t a7 __asm__("a7") = number;
    __asm__ volatile("ecall" : "+r"(a0), "+r"(a1) : "r"(a2), "r"(a3), "r"(a7) : "memory");
    fsu_answer answer = { a0, a1 };
    return answer;
}

/* Writes bytes to descriptor 1 or 2. Answers how many, or minus the error. */
FSU_INLINE int32_t fsu_write(uint32_t descriptor, const void *bytes, uint32_t length)
{
    return (int32_t)fsu_call(64, descriptor, (uintptr_t)bytes, length, 0).error;
}

/* Ends the process, with all its threads. */
__attribute__((noreturn)) FSU_INLINE void fsu_exit(uint32_t value)
{
    fsu_call(93, value, 0, 0, 0);
    __builtin_unreachable();
}

/* Makes a thread. Answers its number. The thread begins with gp and tp 0, so its routine and all that it calls
   may use no thread-local variable, errno among them; fsu_create_with_storage gives it a block of them. */
FSU_INLINE fsu_answer fsu_create(fsu_routine *routine, uint32_t argument, fsu_stack *stack, uint32_t attributes)
{
    return fsu_call(256, (uintptr_t)routine, argument, (uintptr_t)(stack + 1), attributes);
}

/* Makes a thread as fsu_create does, on the stack of `size` bytes from `low` on, and sets gp and tp in it. A block
   of thread-local storage and a note of what to run take the stack's upper end. `low` and `size` are multiples
   of 16, and the size is above fsu_storage_size(). */
fsu_answer fsu_create_with_storage(fsu_routine *routine, uint32_t argument, void *low, uint32_t size,
                                   uint32_t attributes);
uint32_t fsu_storage_size(void);

/* Ends the calling thread, as a return from its routine does. */
__attribute__((noreturn)) FSU_INLINE void fsu_exit_thread(uint32_t value)
{
    fsu_call(257, value, 0, 0, 0);
    __builtin_unreachable();
}

/* Waits for the end of a thread. Answers its value. */
FSU_INLINE fsu_answer fsu_join(fsu_tid thread)
{
    return fsu_call(258, thread, 0, 0, 0);
}

/* Says that nobody will join a thread. */
FSU_INLINE fsu_error fsu_detach(fsu_tid thread)
{
    return fsu_call(259, thread, 0, 0, 0).error;
}

/* The number of the calling thread. */
FSU_INLINE fsu_tid fsu_self(void)
{
    return fsu_call(260, 0, 0, 0, 0).value;
}

/* Lets the other threads of its priority go first. */
FSU_INLINE void fsu_yield(void)
{
    fsu_call(261, 0, 0, 0, 0);
}

/* Mutexes. They have the numbers 0 to 255, which the program chooses. */

/* Kinds of a new mutex. */
enum { FSU_NORMAL = 0, FSU_ERRORCHECK = 1, FSU_RECURSIVE = 2 };

/* Makes a mutex of a kind, which is free. */
FSU_INLINE fsu_error fsu_mutex_init(uint32_t mutex, uint32_t kind)
{
    return fsu_call(274, mutex, kind, 0, 0).error;
}

/* Takes a free mutex away. */
FSU_INLINE fsu_error fsu_mutex_destroy(uint32_t mutex)
{
    return fsu_call(275, mutex, 0, 0, 0).error;
}

/* Takes a mutex, or waits for it. */
FSU_INLINE fsu_error fsu_lock(uint32_t mutex)
{
    return fsu_call(276, mutex, 0, 0, 0).error;
}

/* Takes a mutex that is free, and else answers FSU_EBUSY. */
FSU_INLINE fsu_error fsu_trylock(uint32_t mutex)
{
    return fsu_call(277, mutex, 0, 0, 0).error;
}

/* Releases a mutex of the caller; who waits for it gets it. */
FSU_INLINE fsu_error fsu_unlock(uint32_t mutex)
{
    return fsu_call(278, mutex, 0, 0, 0).error;
}

/* Condition variables. They have the numbers 0 to 255, which the program chooses. */

/* Makes a condition variable, for which nobody waits. */
FSU_INLINE fsu_error fsu_cond_init(uint32_t condition)
{
    return fsu_call(280, condition, 0, 0, 0).error;
}

/* Takes a condition variable away for which nobody waits. */
FSU_INLINE fsu_error fsu_cond_destroy(uint32_t condition)
{
    return fsu_call(281, condition, 0, 0, 0).error;
}

/* Releases a mutex of the caller and waits for a signal; the mutex is the caller's again after it. */
FSU_INLINE fsu_error fsu_cond_wait(uint32_t condition, uint32_t mutex)
{
    return fsu_call(282, condition, mutex, 0, 0).error;
}

/* Wakes one waiter, if there is any. */
FSU_INLINE fsu_error fsu_cond_signal(uint32_t condition)
{
    return fsu_call(284, condition, 0, 0, 0).error;
}

/* Wakes all waiters. */
FSU_INLINE fsu_error fsu_cond_broadcast(uint32_t condition)
{
    return fsu_call(285, condition, 0, 0, 0).error;
}

/* Signals, which come from the journal too. In a set of signals bit s stands for the signal s. */

/* What a signal does: FSU_DEFAULT, FSU_IGNORE or the address of a handler, which gets the signal as its argument, and
   during which the set is masked too. Answers what it did before. */
enum { FSU_DEFAULT = 0, FSU_IGNORE = 1 };
FSU_INLINE fsu_answer fsu_action(uint32_t signal, uint32_t action, uint32_t set)
{
    return fsu_call(286, signal, action, set, 0);
}

/* Changes the mask of the calling thread. Answers the old one. */
enum { FSU_BLOCK = 0, FSU_UNBLOCK = 1, FSU_SET = 2 };
FSU_INLINE fsu_answer fsu_mask(uint32_t how, uint32_t set)
{
    return fsu_call(287, how, set, 0, 0);
}

/* The set of signals that pend on the thread or the process. */
FSU_INLINE fsu_answer fsu_pending(void)
{
    return fsu_call(288, 0, 0, 0, 0);
}

/* Waits for a signal of a set. Answers the signal. */
FSU_INLINE fsu_answer fsu_wait_signal(uint32_t set)
{
    return fsu_call(289, set, 0, 0, 0);
}

/* Sends a signal to a thread; 0 only asks whether there is one. */
FSU_INLINE fsu_error fsu_kill_thread(fsu_tid thread, uint32_t signal)
{
    return fsu_call(290, thread, signal, 0, 0).error;
}

/* Sends a signal to the process. */
FSU_INLINE fsu_error fsu_kill_process(uint32_t signal)
{
    return fsu_call(291, signal, 0, 0, 0).error;
}

/* To come: input. Reads bytes from descriptor 0. Answers how many, or minus the error. */
FSU_INLINE int32_t fsu_read(uint32_t descriptor, void *bytes, uint32_t length)
{
    return (int32_t)fsu_call(63, descriptor, (uintptr_t)bytes, length, 0).error;
}

/* Gives a thread another policy and priority, from 0 to 31; it goes behind the ready threads of that priority. */
FSU_INLINE fsu_error fsu_set_scheduling(fsu_tid thread, uint32_t policy, uint32_t priority)
{
    return fsu_call(262, thread, policy, priority, 0).error;
}

/* Answers 256 times the policy, plus the thread's own priority. */
FSU_INLINE fsu_answer fsu_get_scheduling(fsu_tid thread)
{
    return fsu_call(263, thread, 0, 0, 0);
}

/* To come: the ceiling of a mutex that was made with FSU_PROTECT. */
FSU_INLINE fsu_answer fsu_mutex_ceiling(uint32_t mutex)
{
    return fsu_call(279, mutex, 0, 0, 0);
}

/* Protocols of a new mutex, joined to its kind by |. Today fsu_mutex_init answers FSU_EINVAL to both. */
enum { FSU_INHERIT = 1 << 4, FSU_PROTECT = 2 << 4 };

/* Makes a mutex with a ceiling, which counts with FSU_PROTECT alone. */
FSU_INLINE fsu_error fsu_mutex_init_ceiling(uint32_t mutex, uint32_t kind, uint32_t ceiling)
{
    return fsu_call(274, mutex, kind, ceiling, 0).error;
}

/* To come: cancellation and routines that run when a thread ends. */

FSU_INLINE fsu_error fsu_cancel(fsu_tid thread)
{
    return fsu_call(264, thread, 0, 0, 0).error;
}

/* State 0 lets cancellation act, 1 holds it off. Answers the old state. */
FSU_INLINE fsu_answer fsu_set_cancel_state(uint32_t state)
{
    return fsu_call(265, state, 0, 0, 0);
}

/* Type 0 acts in certain calls alone, 1 at once. Answers the old type. */
FSU_INLINE fsu_answer fsu_set_cancel_type(uint32_t type)
{
    return fsu_call(266, type, 0, 0, 0);
}

FSU_INLINE void fsu_test_cancel(void)
{
    fsu_call(267, 0, 0, 0, 0);
}

FSU_INLINE fsu_error fsu_cleanup_push(fsu_routine *routine, uint32_t argument)
{
    return fsu_call(268, (uintptr_t)routine, argument, 0, 0).error;
}

/* Takes the last routine away, and calls it where `run` is not 0. */
FSU_INLINE fsu_error fsu_cleanup_pop(uint32_t run)
{
    return fsu_call(269, run, 0, 0, 0).error;
}

/* To come: keys, each with a value in each thread. */

/* Makes a key. Its destructor may be null. Answers the key. */
FSU_INLINE fsu_answer fsu_key_create(fsu_routine *destructor)
{
    return fsu_call(270, (uintptr_t)destructor, 0, 0, 0);
}

FSU_INLINE fsu_error fsu_key_delete(uint32_t key)
{
    return fsu_call(271, key, 0, 0, 0).error;
}

FSU_INLINE fsu_error fsu_set_specific(uint32_t key, uint32_t value)
{
    return fsu_call(272, key, value, 0, 0).error;
}

FSU_INLINE fsu_answer fsu_get_specific(uint32_t key)
{
    return fsu_call(273, key, 0, 0, 0);
}

/* Time. Ticks come from the journal, and a deadline is a number of ticks since the start. */

/* As fsu_cond_wait, but at the deadline the wait ends with FSU_ETIMEDOUT; then too the mutex is the caller's again. */
FSU_INLINE fsu_error fsu_cond_timedwait(uint32_t condition, uint32_t mutex, uint32_t deadline)
{
    return fsu_call(283, condition, mutex, deadline, 0).error;
}

/* Waits for so many ticks. Answers FSU_EINTR and the ticks that are left where a handler ended the sleep. */
FSU_INLINE fsu_answer fsu_sleep(uint32_t ticks)
{
    return fsu_call(292, ticks, 0, 0, 0);
}

/* Lets the signal 14 come after so many ticks, in place of an alarm that was set before; 0 only clears that. Answers
   the ticks that were left of it. */
FSU_INLINE fsu_answer fsu_alarm(uint32_t ticks)
{
    return fsu_call(293, ticks, 0, 0, 0);
}

/* The ticks since the start. */
FSU_INLINE fsu_answer fsu_clock(void)
{
    return fsu_call(294, 0, 0, 0, 0);
}

#ifdef __cplusplus
}
#endif

#endif
