/* Counts the primes below 65,536 by the sieve of Eratosthenes. */
#include "print.h"

enum { LIMIT = 65536 };

static uint8_t crossed[LIMIT];

int main(void)
{
    uint32_t count = 0;
    for (uint32_t i = 2; i < LIMIT; i++) {
        if (crossed[i])
            continue;
        count++;
        for (uint32_t j = i * i; i < 256 && j < LIMIT; j += i)
            crossed[j] = 1;
    }
    print_word(count);
    return 0;
}
