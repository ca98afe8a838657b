/* picolibc's, less what fsu_refused.h lists. */
#ifndef FSU_STDIO_H
#define FSU_STDIO_H
#include_next <stdio.h>
#define FSU_REFUSED_STDIO
#include <fsu_refused.h>
#endif
