#include "stacks.h"
#include "kit.h"

/* One for each of the kernel's threads, and one for a thread that is being made. */
enum { MOST_STACKS = 65 };

struct range { char *low; uint32_t size; };

/* What is in use, by rising address. */
static struct range used[MOST_STACKS];
static uint32_t used_count;

/* The first gap that is large enough. */
char *fsu_take_stack(uint32_t size)
{
    char *low = fsu_layout.stacks;
    uint32_t place = 0;

    while (place < used_count && (uint32_t)(used[place].low - low) < size) {
        low = used[place].low + used[place].size;
        place++;
    }
    if (used_count == MOST_STACKS || (place == used_count && (uint32_t)(fsu_layout.stacks_end - low) < size))
        return NULL;
    for (uint32_t i = used_count++; i > place; i--)
        used[i] = used[i - 1];
    used[place] = (struct range){ low, size };
    return low;
}

void fsu_give_stack(char *low)
{
    uint32_t place = 0;

    while (used[place].low != low)
        place++;
    used_count--;
    for (; place < used_count; place++)
        used[place] = used[place + 1];
}
