/* The one list of what cannot be given. Each name here is declared so that its use fails to compile, with the sentence
   that stands beside it. The headers of POSIX include the part that is theirs, named by a macro FSU_REFUSED_. */

#ifndef FSU_REFUSED
#if __has_attribute(unavailable)
#define FSU_REFUSED(sentence) __attribute__((unavailable("fsu_replay " sentence)))
#else
#define FSU_REFUSED(sentence) __attribute__((error("fsu_replay " sentence)))
#endif
#endif

#ifdef __cplusplus
extern "C" {
#endif

#ifdef FSU_REFUSED_PTHREAD
#undef FSU_REFUSED_PTHREAD

#define FSU_NO_RWLOCK FSU_REFUSED("has no read-write locks yet: take a mutex and a condition variable, as examples/readers_writers.c does")
typedef struct { int fsu_none; } pthread_rwlock_t FSU_NO_RWLOCK;
typedef struct { int fsu_none; } pthread_rwlockattr_t FSU_NO_RWLOCK;
#define PTHREAD_RWLOCK_INITIALIZER { 0 }
int pthread_rwlock_init(void *, ...) FSU_NO_RWLOCK;
int pthread_rwlock_destroy(void *, ...) FSU_NO_RWLOCK;
int pthread_rwlock_rdlock(void *, ...) FSU_NO_RWLOCK;
int pthread_rwlock_wrlock(void *, ...) FSU_NO_RWLOCK;
int pthread_rwlock_tryrdlock(void *, ...) FSU_NO_RWLOCK;
int pthread_rwlock_trywrlock(void *, ...) FSU_NO_RWLOCK;
int pthread_rwlock_timedrdlock(void *, ...) FSU_NO_RWLOCK;
int pthread_rwlock_timedwrlock(void *, ...) FSU_NO_RWLOCK;
int pthread_rwlock_unlock(void *, ...) FSU_NO_RWLOCK;
int pthread_rwlockattr_init(void *, ...) FSU_NO_RWLOCK;
int pthread_rwlockattr_destroy(void *, ...) FSU_NO_RWLOCK;
int pthread_rwlockattr_setpshared(void *, ...) FSU_NO_RWLOCK;
int pthread_rwlockattr_getpshared(const void *, ...) FSU_NO_RWLOCK;

#define FSU_NO_BARRIER FSU_REFUSED("has no barriers yet: count arrivals under a mutex, and wait for a condition variable")
typedef struct { int fsu_none; } pthread_barrier_t FSU_NO_BARRIER;
typedef struct { int fsu_none; } pthread_barrierattr_t FSU_NO_BARRIER;
#define PTHREAD_BARRIER_SERIAL_THREAD (-1)
int pthread_barrier_init(void *, ...) FSU_NO_BARRIER;
int pthread_barrier_destroy(void *, ...) FSU_NO_BARRIER;
int pthread_barrier_wait(void *, ...) FSU_NO_BARRIER;
int pthread_barrierattr_init(void *, ...) FSU_NO_BARRIER;
int pthread_barrierattr_destroy(void *, ...) FSU_NO_BARRIER;
int pthread_barrierattr_setpshared(void *, ...) FSU_NO_BARRIER;
int pthread_barrierattr_getpshared(const void *, ...) FSU_NO_BARRIER;

#define FSU_NO_SPIN FSU_REFUSED("has no spin locks: take a mutex")
typedef struct { int fsu_none; } pthread_spinlock_t FSU_NO_SPIN;
int pthread_spin_init(void *, ...) FSU_NO_SPIN;
int pthread_spin_destroy(void *, ...) FSU_NO_SPIN;
int pthread_spin_lock(void *, ...) FSU_NO_SPIN;
int pthread_spin_trylock(void *, ...) FSU_NO_SPIN;
int pthread_spin_unlock(void *, ...) FSU_NO_SPIN;

#define FSU_NO_TIMED_LOCK FSU_REFUSED("has no timed locks of mutexes: wait for a condition variable by pthread_cond_timedwait")
int pthread_mutex_timedlock(void *, ...) FSU_NO_TIMED_LOCK;
int pthread_mutex_clocklock(void *, ...) FSU_NO_TIMED_LOCK;

#define FSU_NO_ROBUST FSU_REFUSED("has no robust mutexes yet: the mutex of a thread that ends stays locked")
enum { PTHREAD_MUTEX_STALLED FSU_NO_ROBUST = 0, PTHREAD_MUTEX_ROBUST FSU_NO_ROBUST = 1 };
int pthread_mutex_consistent(void *, ...) FSU_NO_ROBUST;
int pthread_mutexattr_setrobust(void *, ...) FSU_NO_ROBUST;
int pthread_mutexattr_getrobust(const void *, ...) FSU_NO_ROBUST;

#define FSU_NO_CEILING FSU_REFUSED("changes no ceiling: give it to pthread_mutexattr_setprioceiling before the mutex is made")
int pthread_mutex_setprioceiling(void *, ...) FSU_NO_CEILING;

#define FSU_NO_OWN_STACK FSU_REFUSED("takes stacks from its own pool, without guards: ask for a size by pthread_attr_setstacksize")
int pthread_attr_setstack(void *, ...) FSU_NO_OWN_STACK;
int pthread_attr_getstack(const void *, ...) FSU_NO_OWN_STACK;
int pthread_attr_setguardsize(void *, ...) FSU_NO_OWN_STACK;
int pthread_attr_getguardsize(const void *, ...) FSU_NO_OWN_STACK;

#define FSU_NO_SHARING FSU_REFUSED("has one process: nothing is shared between processes")
enum { PTHREAD_PROCESS_PRIVATE FSU_NO_SHARING = 0, PTHREAD_PROCESS_SHARED FSU_NO_SHARING = 1 };
int pthread_mutexattr_setpshared(void *, ...) FSU_NO_SHARING;
int pthread_mutexattr_getpshared(const void *, ...) FSU_NO_SHARING;
int pthread_condattr_setpshared(void *, ...) FSU_NO_SHARING;
int pthread_condattr_getpshared(const void *, ...) FSU_NO_SHARING;
int pthread_atfork(void (*)(void), void (*)(void), void (*)(void)) FSU_NO_SHARING;

#define FSU_NO_THREAD_CLOCK FSU_REFUSED("has no clocks of threads: there is one clock of ticks")
int pthread_getcpuclockid(uint32_t, ...) FSU_NO_THREAD_CLOCK;
#endif

#ifdef FSU_REFUSED_SCHED
#undef FSU_REFUSED_SCHED

#define FSU_NO_PROCESS_SCHED FSU_REFUSED("schedules threads and no processes: take pthread_setschedparam")
int sched_setscheduler(int, ...) FSU_NO_PROCESS_SCHED;
int sched_getscheduler(int, ...) FSU_NO_PROCESS_SCHED;
int sched_setparam(int, ...) FSU_NO_PROCESS_SCHED;
int sched_getparam(int, ...) FSU_NO_PROCESS_SCHED;
int sched_rr_get_interval(int, ...) FSU_NO_PROCESS_SCHED;
#endif

#ifdef FSU_REFUSED_SEMAPHORE
#undef FSU_REFUSED_SEMAPHORE

#define FSU_NO_NAMED FSU_REFUSED("has no named semaphores: take sem_init")
sem_t *sem_open(const char *, int, ...) FSU_NO_NAMED;
int sem_close(sem_t *) FSU_NO_NAMED;
int sem_unlink(const char *) FSU_NO_NAMED;
#endif

#ifdef FSU_REFUSED_SIGNAL
#undef FSU_REFUSED_SIGNAL

#define FSU_NO_SUSPEND FSU_REFUSED("has no sigsuspend: block the signals and take sigwait")
int sigsuspend(const sigset_t *) FSU_NO_SUSPEND;
int sigpause(int) FSU_NO_SUSPEND;

#define FSU_NO_SIGINFO FSU_REFUSED("has no siginfo: a handler gets the number of its signal alone")
typedef struct { int si_signo; } siginfo_t FSU_NO_SIGINFO;
enum { SA_SIGINFO FSU_NO_SIGINFO = 4 };
int sigwaitinfo(const sigset_t *, ...) FSU_NO_SIGINFO;
int sigtimedwait(const sigset_t *, ...) FSU_NO_SIGINFO;
int sigqueue(pid_t, int, ...) FSU_NO_SIGINFO;
int pthread_sigqueue(uint32_t, int, ...) FSU_NO_SIGINFO;

#define FSU_NO_OTHER_STACK FSU_REFUSED("runs handlers on the stack of their thread")
int sigaltstack(const void *, ...) FSU_NO_OTHER_STACK;

#define FSU_NO_JOBS FSU_REFUSED("has no job control: signals 18 to 22 are left out")
enum {
    SIGCONT FSU_NO_JOBS = 18, SIGSTOP FSU_NO_JOBS = 19, SIGTSTP FSU_NO_JOBS = 20, SIGTTIN FSU_NO_JOBS = 21,
    SIGTTOU FSU_NO_JOBS = 22,
};
int killpg(int, int) FSU_NO_JOBS;
#endif

#ifdef FSU_REFUSED_UNISTD
#undef FSU_REFUSED_UNISTD

#define FSU_NO_FILES FSU_REFUSED("has no files: there are descriptors 0, 1 and 2 alone")
int access(const char *, int) FSU_NO_FILES;
int chdir(const char *) FSU_NO_FILES;
int close(int) FSU_NO_FILES;
int dup(int) FSU_NO_FILES;
int dup2(int, int) FSU_NO_FILES;
int fsync(int) FSU_NO_FILES;
int ftruncate(int, ...) FSU_NO_FILES;
char *getcwd(char *, size_t) FSU_NO_FILES;
int isatty(int) FSU_NO_FILES;
int link(const char *, const char *) FSU_NO_FILES;
int lseek(int, ...) FSU_NO_FILES;
int pipe(int[2]) FSU_NO_FILES;
ssize_t pread(int, void *, size_t, ...) FSU_NO_FILES;
ssize_t pwrite(int, const void *, size_t, ...) FSU_NO_FILES;
int rmdir(const char *) FSU_NO_FILES;
int unlink(const char *) FSU_NO_FILES;

#define FSU_NO_PROCESSES FSU_REFUSED("has one process: make threads by pthread_create")
pid_t fork(void) FSU_NO_PROCESSES;
pid_t vfork(void) FSU_NO_PROCESSES;
pid_t getppid(void) FSU_NO_PROCESSES;
int execl(const char *, const char *, ...) FSU_NO_PROCESSES;
int execlp(const char *, const char *, ...) FSU_NO_PROCESSES;
int execv(const char *, char *const[]) FSU_NO_PROCESSES;
int execve(const char *, char *const[], char *const[]) FSU_NO_PROCESSES;
int execvp(const char *, char *const[]) FSU_NO_PROCESSES;

#define FSU_NO_PAUSE FSU_REFUSED("has no pause: block the signals and take sigwait")
int pause(void) FSU_NO_PAUSE;
#endif

#ifdef FSU_REFUSED_STDIO
#undef FSU_REFUSED_STDIO

#define FSU_NO_STREAMS FSU_REFUSED("has no files: there are stdin, stdout and stderr alone")
FILE *fopen(const char *, const char *) FSU_NO_STREAMS;
FILE *fdopen(int, const char *) FSU_NO_STREAMS;
FILE *freopen(const char *, const char *, FILE *) FSU_NO_STREAMS;
FILE *tmpfile(void) FSU_NO_STREAMS;
int remove(const char *) FSU_NO_STREAMS;
int rename(const char *, const char *) FSU_NO_STREAMS;
#endif

#ifdef FSU_REFUSED_FCNTL
#undef FSU_REFUSED_FCNTL

#define FSU_NO_OPEN FSU_REFUSED("has no files: there are descriptors 0, 1 and 2 alone")
int open(const char *, int, ...) FSU_NO_OPEN;
int creat(const char *, mode_t) FSU_NO_OPEN;
int fcntl(int, int, ...) FSU_NO_OPEN;
#endif

#ifdef __cplusplus
}
#endif

#ifdef FSU_REFUSED_THREADS
#error "fsu_replay has no threads of C11: take <pthread.h>"
#endif
#ifdef FSU_REFUSED_ATOMICS
#error "fsu_replay has no atomic instructions: take a mutex of <pthread.h>"
#endif
