/* For programs without picolibc, which has its own. */
#include <errno.h>

__thread int errno;
