/* Numbers of the kernel's mutexes and conditions for objects of POSIX. */
#ifndef NUMBERS_H
#define NUMBERS_H

#include "kit.h"
#include <pthread.h>

/* The number of an object, which takes one now where it has none. Answers an error. */
int fsu_mutex_number(pthread_mutex_t *mutex, uint32_t *number);
int fsu_condition_number(pthread_cond_t *condition, uint32_t *number);

/* The same between fsu_enter and fsu_leave. */
int fsu_condition_number_entered(pthread_cond_t *condition, uint32_t *number);

#endif
