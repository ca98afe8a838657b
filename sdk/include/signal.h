/* Signals. They have the numbers of Linux, and in a set bit s stands for the signal s. */
#ifndef FSU_SIGNAL_H
#define FSU_SIGNAL_H

#include <fsu_types.h>

#ifdef __cplusplus
extern "C" {
#endif

#define SIGHUP 1
#define SIGINT 2
#define SIGQUIT 3
#define SIGILL 4
#define SIGTRAP 5
#define SIGABRT 6
#define SIGBUS 7
#define SIGFPE 8
#define SIGKILL 9
#define SIGUSR1 10
#define SIGSEGV 11
#define SIGUSR2 12
#define SIGPIPE 13
#define SIGALRM 14
#define SIGTERM 15
#define SIGCHLD 17
#define SIGURG 23
#define SIGXCPU 24
#define SIGXFSZ 25
#define SIGVTALRM 26
#define SIGPROF 27
#define SIGWINCH 28
#define SIGIO 29
#define SIGPWR 30
#define SIGSYS 31
#define NSIG 32

typedef int sig_atomic_t;
typedef void (*sighandler_t)(int);
typedef sighandler_t _sig_func_ptr;

#ifndef _SIGSET_T_DECLARED
#define _SIGSET_T_DECLARED
typedef unsigned long sigset_t;
#endif

#define SIG_DFL ((sighandler_t)0)
#define SIG_IGN ((sighandler_t)1)
#define SIG_ERR ((sighandler_t)-1)

/* No flag is supported: sigaction answers ENOTSUP to each. */
#define SA_NOCLDSTOP 0x00000001
#define SA_NOCLDWAIT 0x00000002
#define SA_ONSTACK 0x08000000
#define SA_RESTART 0x10000000
#define SA_NODEFER 0x40000000
#define SA_RESETHAND 0x80000000

struct sigaction {
    sighandler_t sa_handler;
    sigset_t sa_mask;
    int sa_flags;
};

enum { SIG_BLOCK = 0, SIG_UNBLOCK = 1, SIG_SETMASK = 2 };

int sigemptyset(sigset_t *set);
int sigfillset(sigset_t *set);
int sigaddset(sigset_t *set, int signal);
int sigdelset(sigset_t *set, int signal);
int sigismember(const sigset_t *set, int signal);

int sigaction(int signal, const struct sigaction *__restrict action, struct sigaction *__restrict old);
sighandler_t signal(int signal, sighandler_t handler);
int sigprocmask(int how, const sigset_t *__restrict set, sigset_t *__restrict old);
int sigpending(sigset_t *set);
int kill(pid_t process, int signal);
int raise(int signal);

/* These answer an error and leave errno. */
int pthread_sigmask(int how, const sigset_t *__restrict set, sigset_t *__restrict old);
int sigwait(const sigset_t *__restrict set, int *__restrict signal);
int pthread_kill(uint32_t thread, int signal);

#ifdef __cplusplus
}
#endif

#define FSU_REFUSED_SIGNAL
#include <fsu_refused.h>
#endif
