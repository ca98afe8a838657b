/* Writes LENGTH bytes, 4 ROUNDS times. One instruction stands before each ECALL, and puts the descriptor into a0. The
   bytes are filled also where none is written. */
#include "fsu.h"

static uint32_t words[16384];

int main(void)
{
    for (uint32_t i = 0; i < 16384; i++)
        words[i] = i * 0x9e3779b1;
    __asm__ volatile("" : : "r"(words) : "memory");
    for (uint32_t left = ROUNDS; left > 0; left--)
        __asm__ volatile("mv a1, %0\n mv a2, %1\n li a3, 0\n li a7, 64\n .rept 4\n li a0, 1\n ecall\n .endr"
                         : : "r"(words), "r"(LENGTH) : "a0", "a1", "a2", "a3", "a7", "memory");
    return 0;
}
