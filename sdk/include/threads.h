#define FSU_REFUSED_THREADS
#include <fsu_refused.h>
