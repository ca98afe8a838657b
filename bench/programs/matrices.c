/* Multiplies two matrices of 40 rows and 40 columns. */
#include "print.h"

enum { SIZE = 40 };

static uint32_t left[SIZE][SIZE], right[SIZE][SIZE], product[SIZE][SIZE];

static void fill(uint32_t matrix[SIZE][SIZE], uint32_t last)
{
    for (int i = 0; i < SIZE; i++)
        for (int j = 0; j < SIZE; j++)
            matrix[i][j] = next_number(&last);
}

static void multiply(void)
{
    for (int i = 0; i < SIZE; i++)
        for (int j = 0; j < SIZE; j++) {
            uint32_t sum = 0;
            for (int k = 0; k < SIZE; k++)
                sum += left[i][k] * right[k][j];
            product[i][j] = sum;
        }
}

int main(void)
{
    uint32_t sum = 0;
    fill(left, 1);
    fill(right, 2);
    multiply();
    for (int i = 0; i < SIZE; i++)
        for (int j = 0; j < SIZE; j++)
            sum = sum * 31 + product[i][j];
    print_word(sum);
    return 0;
}
