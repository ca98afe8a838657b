/* Divides numbers of 64 bits by divisors of 1 to 64 bits, 3,000 times, with and without a sign. */
#include "print.h"

enum { COUNT = 3000 };

int main(void)
{
    uint32_t last = 1;
    uint64_t sum = 0;
    for (uint32_t i = 0; i < COUNT; i++) {
        uint64_t number = (uint64_t)next_number(&last) << 32 | next_number(&last);
        uint64_t divisor = (uint64_t)next_number(&last) << 32 | next_number(&last);
        divisor = divisor >> i % 64 | 1;
        if (i % 2)
            sum = sum * 31 + number / divisor + number % divisor;
        else
            sum = sum * 31 + (uint64_t)((int64_t)number / (int64_t)(divisor >> 1 | 1));
    }
    print_word((uint32_t)(sum >> 32));
    print_word((uint32_t)sum);
    return 0;
}
