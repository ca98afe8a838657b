/* Texts of the kernel's errors, in the place of picolibc's (--wrap), which has other numbers above 34. */
#include <errno.h>
#include <stddef.h>

static const struct { int number; const char *text; } texts[] = {
    { 0, "Success" },
    { EPERM, "Operation not permitted" },
    { ENOENT, "No such file or directory" },
    { ESRCH, "No such process" },
    { EINTR, "Interrupted system call" },
    { EIO, "Input/output error" },
    { EBADF, "Bad file descriptor" },
    { EAGAIN, "Resource temporarily unavailable" },
    { ENOMEM, "Cannot allocate memory" },
    { EACCES, "Permission denied" },
    { EFAULT, "Bad address" },
    { EBUSY, "Device or resource busy" },
    { EEXIST, "File exists" },
    { EINVAL, "Invalid argument" },
    { ENOSPC, "No space left on device" },
    { ESPIPE, "Illegal seek" },
    { EDOM, "Numerical argument out of domain" },
    { ERANGE, "Numerical result out of range" },
    { EDEADLK, "Resource deadlock avoided" },
    { ENOSYS, "Function not implemented" },
    { EOVERFLOW, "Value too large for defined data type" },
    { EOPNOTSUPP, "Operation not supported" },
    { ETIMEDOUT, "Connection timed out" },
    { ECANCELED, "Operation canceled" },
    { EOWNERDEAD, "Owner died" },
    { ENOTRECOVERABLE, "State not recoverable" },
};

char *__wrap_strerror(int number)
{
    for (size_t i = 0; i < sizeof texts / sizeof texts[0]; i++)
        if (texts[i].number == number)
            return (char *)texts[i].text;
    return (char *)"Unknown error";
}

/* strerror_r stands on this. */
char *__wrap__strerror_r(int number, int internal, int *error)
{
    (void)internal;
    (void)error;
    return __wrap_strerror(number);
}
