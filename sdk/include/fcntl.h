/* picolibc's, less what fsu_refused.h lists. */
#ifndef FSU_FCNTL_H
#define FSU_FCNTL_H
#include_next <fcntl.h>
#define FSU_REFUSED_FCNTL
#include <fsu_refused.h>
#endif
