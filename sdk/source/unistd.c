#include "kit.h"
#include <errno.h>
#include <unistd.h>

/* Minus an error, as the calls below 256 answer it, becomes -1 with errno. */
static ssize_t told(int32_t answer)
{
    if (answer >= 0)
        return answer;
    errno = -answer;
    return -1;
}

ssize_t write(int descriptor, const void *bytes, size_t length)
{
    return told(fsu_write((uint32_t)descriptor, bytes, length));
}

ssize_t read(int descriptor, void *bytes, size_t length)
{
    return told(fsu_read((uint32_t)descriptor, bytes, length));
}

pid_t getpid(void)
{
    return 1;
}
