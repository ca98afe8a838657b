/* Signals. */
#include "kit.h"
#include <errno.h>
#include <signal.h>
#include <unistd.h>

/* What the program asked for last; the kernel tells of the old handler alone. */
static struct sigaction actions[NSIG];

/* -1 with errno where there is an error. */
static int told(int error)
{
    if (error == 0)
        return 0;
    errno = error;
    return -1;
}

static int is_signal(int signal)
{
    return 0 < signal && signal < NSIG;
}

int sigemptyset(sigset_t *set)
{
    *set = 0;
    return 0;
}

int sigfillset(sigset_t *set)
{
    *set = ~(sigset_t)1;
    return 0;
}

int sigaddset(sigset_t *set, int signal)
{
    if (!is_signal(signal))
        return told(EINVAL);
    *set |= (sigset_t)1 << signal;
    return 0;
}

int sigdelset(sigset_t *set, int signal)
{
    if (!is_signal(signal))
        return told(EINVAL);
    *set &= ~((sigset_t)1 << signal);
    return 0;
}

int sigismember(const sigset_t *set, int signal)
{
    if (!is_signal(signal))
        return told(EINVAL);
    return *set >> signal & 1;
}

static int is_handler(sighandler_t handler)
{
    return handler != SIG_DFL && handler != SIG_IGN;
}

/* Between enter and leave. */
static int act(int signal, const struct sigaction *action)
{
    fsu_answer answer = fsu_action((uint32_t)signal, (uint32_t)(uintptr_t)action->sa_handler, action->sa_mask);

    if (answer.error == 0)
        actions[signal] = *action;
    return (int)answer.error;
}

int sigaction(int signal, const struct sigaction *restrict action, struct sigaction *restrict old)
{
    if (!is_signal(signal))
        return told(EINVAL);
    if (action != NULL && action->sa_flags != 0)
        return told(ENOTSUP);
    if (action != NULL && is_handler(action->sa_handler))
        fsu_handlers_come();

    uint32_t mask = fsu_enter();
    struct sigaction before = actions[signal];
    int error = action == NULL ? 0 : act(signal, action);
    fsu_leave(mask);
    if (error == 0 && old != NULL)
        *old = before;
    return told(error);
}

sighandler_t signal(int signal, sighandler_t handler)
{
    struct sigaction action = { .sa_handler = handler }, old;

    return sigaction(signal, &action, &old) == 0 ? old.sa_handler : SIG_ERR;
}

int pthread_sigmask(int how, const sigset_t *restrict set, sigset_t *restrict old)
{
    fsu_answer answer = set == NULL ? fsu_mask(SIG_BLOCK, 0) : fsu_mask((uint32_t)how, *set);

    if (answer.error == 0 && old != NULL)
        *old = answer.value;
    return (int)answer.error;
}

int sigprocmask(int how, const sigset_t *restrict set, sigset_t *restrict old)
{
    return told(pthread_sigmask(how, set, old));
}

int sigpending(sigset_t *set)
{
    fsu_answer answer = fsu_pending();

    if (answer.error == 0)
        *set = answer.value;
    return told((int)answer.error);
}

int sigwait(const sigset_t *restrict set, int *restrict signal)
{
    fsu_answer answer = fsu_wait_signal(*set);

    if (answer.error == 0)
        *signal = (int)answer.value;
    return (int)answer.error;
}

int pthread_kill(uint32_t thread, int signal)
{
    return (int)fsu_kill_thread(thread, (uint32_t)signal);
}

int raise(int signal)
{
    return told(pthread_kill(fsu_self(), signal));
}

int kill(pid_t process, int signal)
{
    return told(process == getpid() ? (int)fsu_kill_process((uint32_t)signal) : ESRCH);
}
