/* Types of POSIX that several headers need: picolibc's where it is installed. */
#ifndef FSU_TYPES_H
#define FSU_TYPES_H

#include <stddef.h>
#include <stdint.h>

#if __has_include(<sys/types.h>)
#include <sys/types.h>
#include <sys/_timespec.h>
#else
typedef int pid_t;
typedef int ssize_t;
typedef unsigned long useconds_t;
typedef int64_t time_t;
typedef unsigned long clockid_t;
struct timespec { time_t tv_sec; long tv_nsec; };
#endif

#endif
