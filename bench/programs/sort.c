/* Sorts 5,000 numbers by quicksort, with insertion for short parts. */
#include "print.h"

enum { COUNT = 5000, SHORT = 8 };

static uint32_t numbers[COUNT];

static void insert(uint32_t *first, uint32_t *end)
{
    for (uint32_t *next = first + 1; next < end; next++) {
        uint32_t number = *next, *place = next;
        for (; place > first && place[-1] > number; place--)
            *place = place[-1];
        *place = number;
    }
}

static void sort(uint32_t *first, uint32_t *end)
{
    while (end - first > SHORT) {
        uint32_t middle = first[(end - first) / 2];
        uint32_t *low = first, *high = end - 1;
        while (low <= high) {
            while (*low < middle)
                low++;
            while (*high > middle)
                high--;
            if (low <= high) {
                uint32_t number = *low;
                *low++ = *high;
                *high-- = number;
            }
        }
        sort(first, high + 1);
        first = low;
    }
    insert(first, end);
}

int main(void)
{
    uint32_t last = 1, sum = 0;
    for (int i = 0; i < COUNT; i++)
        numbers[i] = next_number(&last);
    sort(numbers, numbers + COUNT);
    for (int i = 0; i < COUNT; i++) {
        if (i > 0 && numbers[i - 1] > numbers[i])
            return 1;
        sum = sum * 31 + numbers[i];
    }
    print_word(sum);
    return 0;
}
