/* Policies and priorities of threads: 0 to 31 for each policy; the greater goes first. */
#ifndef FSU_SCHED_H
#define FSU_SCHED_H

#ifdef __cplusplus
extern "C" {
#endif

#define SCHED_OTHER 0
#define SCHED_FIFO 1
#define SCHED_RR 2

struct sched_param { int sched_priority; };

int sched_yield(void);
int sched_get_priority_min(int policy);
int sched_get_priority_max(int policy);

#ifdef __cplusplus
}
#endif

#define FSU_REFUSED_SCHED
#include <fsu_refused.h>
#endif
