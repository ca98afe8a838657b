/* A condition that does not hold is told on descriptor 2 with its line. A test passes where it exits with 0 and writes
   what stands in its .txt file, or nothing where there is none. */
#ifndef CHECK_H
#define CHECK_H

#include <fsu.h>

#define TEXT(number) TEXT_OF(number)
#define TEXT_OF(number) #number
#define CHECK(condition) \
    do { \
        static const char told[] = __FILE__ ":" TEXT(__LINE__) ": " #condition "\n"; \
        if (!(condition)) \
            fsu_write(2, told, sizeof told - 1); \
    } while (0)

#endif
