#define FSU_REFUSED_ATOMICS
#include <fsu_refused.h>
