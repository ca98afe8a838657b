/* Writes a line. In the trace: the call 64 is the write, of 13 bytes to descriptor 1, and is answered 0 (no
   error) and 13. The line `out` has the bytes in hexadecimal. The call 93 is the exit with main's value. */
#include "fsu.h"

int main(void)
{
    fsu_write(1, "hello, world\n", 13);
    return 0;
}
