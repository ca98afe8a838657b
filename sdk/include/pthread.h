/* POSIX threads over the calls of fsu.h. What stands under 'to come' answers ENOSYS until the program makes the
   call; fsu_refused.h lists what there is not. Each mutex and each condition variable takes a number of the kernel, of
   which there are 256 each; one with a static initialiser takes it at its first use. Where none is left the answer
   is EAGAIN. The library has mutex 255 for itself, and passes over numbers that the program took by fsu.h. Threads are
   made by one of the two headers and not by both: this one keeps account of their stacks. */
#ifndef FSU_PTHREAD_H
#define FSU_PTHREAD_H

#include <fsu_types.h>
#include <sched.h>
#include <time.h>

#ifdef __cplusplus
extern "C" {
#endif

/* Threads. The number of a thread is the kernel's, 1 to 64. */

typedef uint32_t pthread_t;

typedef struct {
    uint32_t fsu_stack_size;
    int fsu_is_detached;
    int fsu_is_explicit;
    int fsu_policy;
    int fsu_priority;
} pthread_attr_t;

#define PTHREAD_THREADS_MAX 64
#define PTHREAD_STACK_MIN 4096

enum { PTHREAD_CREATE_JOINABLE = 0, PTHREAD_CREATE_DETACHED = 1 };
enum { PTHREAD_INHERIT_SCHED = 0, PTHREAD_EXPLICIT_SCHED = 1 };
enum { PTHREAD_SCOPE_SYSTEM = 0, PTHREAD_SCOPE_PROCESS = 1 };

int pthread_create(pthread_t *__restrict thread, const pthread_attr_t *__restrict attributes,
                   void *(*routine)(void *), void *__restrict argument);
int pthread_join(pthread_t thread, void **value);
int pthread_detach(pthread_t thread);
void pthread_exit(void *value) __attribute__((noreturn));
pthread_t pthread_self(void);
int pthread_equal(pthread_t one, pthread_t other);
int pthread_yield(void);

/* A stack has 16384 bytes where no size is asked for. Policy and priority count with PTHREAD_EXPLICIT_SCHED; else a
   thread has its creator's. All threads compete within the process. */
int pthread_attr_init(pthread_attr_t *attributes);
int pthread_attr_destroy(pthread_attr_t *attributes);
int pthread_attr_setstacksize(pthread_attr_t *attributes, size_t size);
int pthread_attr_getstacksize(const pthread_attr_t *__restrict attributes, size_t *__restrict size);
int pthread_attr_setdetachstate(pthread_attr_t *attributes, int state);
int pthread_attr_getdetachstate(const pthread_attr_t *attributes, int *state);
int pthread_attr_setinheritsched(pthread_attr_t *attributes, int inherit);
int pthread_attr_getinheritsched(const pthread_attr_t *__restrict attributes, int *__restrict inherit);
int pthread_attr_setschedpolicy(pthread_attr_t *attributes, int policy);
int pthread_attr_getschedpolicy(const pthread_attr_t *__restrict attributes, int *__restrict policy);
int pthread_attr_setschedparam(pthread_attr_t *__restrict attributes,
                               const struct sched_param *__restrict parameters);
int pthread_attr_getschedparam(const pthread_attr_t *__restrict attributes,
                               struct sched_param *__restrict parameters);
int pthread_attr_setscope(pthread_attr_t *attributes, int scope);
int pthread_attr_getscope(const pthread_attr_t *__restrict attributes, int *__restrict scope);

/* Mutexes. */

typedef struct {
    uint32_t fsu_word;          /* 0: has no number yet; its number plus 1; or it was destroyed */
    uint32_t fsu_attributes;
    uint32_t fsu_ceiling;
} pthread_mutex_t;

typedef struct {
    uint32_t fsu_attributes;
    uint32_t fsu_ceiling;
} pthread_mutexattr_t;

enum {
    PTHREAD_MUTEX_NORMAL = 0, PTHREAD_MUTEX_DEFAULT = PTHREAD_MUTEX_NORMAL, PTHREAD_MUTEX_ERRORCHECK = 1,
    PTHREAD_MUTEX_RECURSIVE = 2,
};

#define PTHREAD_MUTEX_INITIALIZER { 0, PTHREAD_MUTEX_NORMAL, 0 }
#define PTHREAD_ERRORCHECK_MUTEX_INITIALIZER_NP { 0, PTHREAD_MUTEX_ERRORCHECK, 0 }
#define PTHREAD_RECURSIVE_MUTEX_INITIALIZER_NP { 0, PTHREAD_MUTEX_RECURSIVE, 0 }

int pthread_mutex_init(pthread_mutex_t *__restrict mutex, const pthread_mutexattr_t *__restrict attributes);
int pthread_mutex_destroy(pthread_mutex_t *mutex);
int pthread_mutex_lock(pthread_mutex_t *mutex);
int pthread_mutex_trylock(pthread_mutex_t *mutex);
int pthread_mutex_unlock(pthread_mutex_t *mutex);

int pthread_mutexattr_init(pthread_mutexattr_t *attributes);
int pthread_mutexattr_destroy(pthread_mutexattr_t *attributes);
int pthread_mutexattr_settype(pthread_mutexattr_t *attributes, int type);
int pthread_mutexattr_gettype(const pthread_mutexattr_t *__restrict attributes, int *__restrict type);

/* Condition variables. */

typedef struct {
    uint32_t fsu_word;          /* as of a mutex */
} pthread_cond_t;

typedef struct {
    clockid_t fsu_clock;
} pthread_condattr_t;

#define PTHREAD_COND_INITIALIZER { 0 }

int pthread_cond_init(pthread_cond_t *__restrict condition, const pthread_condattr_t *__restrict attributes);
int pthread_cond_destroy(pthread_cond_t *condition);
int pthread_cond_wait(pthread_cond_t *__restrict condition, pthread_mutex_t *__restrict mutex);
int pthread_cond_signal(pthread_cond_t *condition);
int pthread_cond_broadcast(pthread_cond_t *condition);

/* All clocks are one: ticks since the start. */
int pthread_condattr_init(pthread_condattr_t *attributes);
int pthread_condattr_destroy(pthread_condattr_t *attributes);
int pthread_condattr_setclock(pthread_condattr_t *attributes, clockid_t clock);
int pthread_condattr_getclock(const pthread_condattr_t *__restrict attributes, clockid_t *__restrict clock);

/* A routine that runs once. */

typedef struct {
    int fsu_state;
} pthread_once_t;

#define PTHREAD_ONCE_INIT { 0 }

int pthread_once(pthread_once_t *once, void (*routine)(void));

/* Routines that run when a thread ends between push and pop. Where the kernel does not keep one, the library does:
   today all of them, and later those beyond 32; cancellation passes the library's over. */

struct fsu_cleanup {
    void (*routine)(void *);
    void *argument;
    struct fsu_cleanup *below;
    int is_in_kernel;
};

void fsu_push_cleanup(struct fsu_cleanup *cleanup, void (*routine)(void *), void *argument);
void fsu_pop_cleanup(struct fsu_cleanup *cleanup, int run);

#define pthread_cleanup_push(routine, argument) \
    do { struct fsu_cleanup fsu_cleanup_here; fsu_push_cleanup(&fsu_cleanup_here, (routine), (argument))
#define pthread_cleanup_pop(run) \
    fsu_pop_cleanup(&fsu_cleanup_here, (run)); } while (0)

/* A wait with an end, which counts from the start of the program. It ends at the first tick that is no earlier. */
int pthread_cond_timedwait(pthread_cond_t *__restrict condition, pthread_mutex_t *__restrict mutex,
                           const struct timespec *__restrict end);

/* Priorities of threads that there are. A ready thread that is given one, its old one too, goes behind the others of
   that priority. */
int pthread_setschedparam(pthread_t thread, int policy, const struct sched_param *parameters);
int pthread_getschedparam(pthread_t thread, int *__restrict policy, struct sched_param *__restrict parameters);
int pthread_setschedprio(pthread_t thread, int priority);

/* To come: protocols of mutexes. Today pthread_mutex_init answers EINVAL to a protocol. */
enum { PTHREAD_PRIO_NONE = 0, PTHREAD_PRIO_INHERIT = 1, PTHREAD_PRIO_PROTECT = 2 };
int pthread_mutexattr_setprotocol(pthread_mutexattr_t *attributes, int protocol);
int pthread_mutexattr_getprotocol(const pthread_mutexattr_t *__restrict attributes, int *__restrict protocol);
int pthread_mutexattr_setprioceiling(pthread_mutexattr_t *attributes, int ceiling);
int pthread_mutexattr_getprioceiling(const pthread_mutexattr_t *__restrict attributes, int *__restrict ceiling);
int pthread_mutex_getprioceiling(const pthread_mutex_t *__restrict mutex, int *__restrict ceiling);

/* To come: cancellation. */
enum { PTHREAD_CANCEL_ENABLE = 0, PTHREAD_CANCEL_DISABLE = 1 };
enum { PTHREAD_CANCEL_DEFERRED = 0, PTHREAD_CANCEL_ASYNCHRONOUS = 1 };
#define PTHREAD_CANCELED ((void *)-1)
int pthread_cancel(pthread_t thread);
int pthread_setcancelstate(int state, int *old);
int pthread_setcanceltype(int type, int *old);
void pthread_testcancel(void);

/* To come: keys. */
typedef uint32_t pthread_key_t;
#define PTHREAD_KEYS_MAX 128
#define PTHREAD_DESTRUCTOR_ITERATIONS 4
int pthread_key_create(pthread_key_t *key, void (*destructor)(void *));
int pthread_key_delete(pthread_key_t key);
int pthread_setspecific(pthread_key_t key, const void *value);
void *pthread_getspecific(pthread_key_t key);

#ifdef __cplusplus
}
#endif

#define FSU_REFUSED_PTHREAD
#include <fsu_refused.h>
#endif
