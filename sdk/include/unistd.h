/* What there is of unistd.h: descriptors 0, 1 and 2, the end of the process, and sleeping. */
#ifndef FSU_UNISTD_H
#define FSU_UNISTD_H

#include <fsu_types.h>

#ifdef __cplusplus
extern "C" {
#endif

#define STDIN_FILENO 0
#define STDOUT_FILENO 1
#define STDERR_FILENO 2

#ifndef _POSIX_THREADS
#define _POSIX_THREADS 200809L
#endif
#ifndef _POSIX_SEMAPHORES
#define _POSIX_SEMAPHORES 200809L
#endif

extern char **environ;

ssize_t write(int descriptor, const void *bytes, size_t length);
void _exit(int value) __attribute__((noreturn));
pid_t getpid(void);             /* always 1 */
void *sbrk(ptrdiff_t more);     /* picolibc's */

/* To come: until the program makes the call, read answers -1 with ENOSYS in errno. */
ssize_t read(int descriptor, void *bytes, size_t length);

/* In ticks of 10 ms, as time.h tells. What is left, of a sleep that a handler ended or of the alarm that was set, is
   answered in whole seconds that are no fewer. */
unsigned sleep(unsigned seconds);
int usleep(useconds_t microseconds);
unsigned alarm(unsigned seconds);

#ifdef __cplusplus
}
#endif

#define FSU_REFUSED_UNISTD
#include <fsu_refused.h>
#endif
