/* Divisions of 64 bits, which compilers call by these names; for programs without libgcc. */
#include <stdint.h>

struct divided { uint64_t quotient, remainder; };

/* By 0 the quotient has all bits set, and the remainder is the dividend, as for divisions of 32 bits. */
static struct divided divide(uint64_t dividend, uint64_t divisor)
{
    struct divided result = { 0, 0 };

    if ((dividend | divisor) >> 32 == 0)
        return (struct divided){ divisor == 0 ? ~0ull : (uint32_t)dividend / (uint32_t)divisor,
                                 (uint32_t)dividend % (uint32_t)divisor };
    for (int bit = 63; bit >= 0; bit--) {
        int is_carried = result.remainder >> 63 != 0;
        result.remainder = result.remainder << 1 | (dividend >> bit & 1);
        if (is_carried || result.remainder >= divisor) {
            result.remainder -= divisor;
            result.quotient |= 1ull << bit;
        }
    }
    return result;
}

static uint64_t magnitude(int64_t value)
{
    return value < 0 ? -(uint64_t)value : (uint64_t)value;
}

uint64_t __udivdi3(uint64_t dividend, uint64_t divisor)
{
    return divide(dividend, divisor).quotient;
}

uint64_t __umoddi3(uint64_t dividend, uint64_t divisor)
{
    return divide(dividend, divisor).remainder;
}

int64_t __divdi3(int64_t dividend, int64_t divisor)
{
    uint64_t quotient = divide(magnitude(dividend), magnitude(divisor)).quotient;

    return (int64_t)((dividend < 0) != (divisor < 0) ? -quotient : quotient);
}

int64_t __moddi3(int64_t dividend, int64_t divisor)
{
    uint64_t remainder = divide(magnitude(dividend), magnitude(divisor)).remainder;

    return (int64_t)(dividend < 0 ? -remainder : remainder);
}
