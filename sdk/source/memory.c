/* What compilers call by themselves. Start code brings it in before picolibc's, which goes byte by byte: malloc of
   picolibc fills what it gives, and instructions count against the budget of a run. */
#include <stddef.h>
#include <stdint.h>

typedef uint32_t __attribute__((may_alias)) word;

enum { WORD = sizeof(word), BLOCK = 4 * WORD };

void *memset(void *to, int value, size_t length)
{
    unsigned char *bytes = to;
    word words = 0x01010101u * (unsigned char)value;

    for (; length > 0 && (uintptr_t)bytes % WORD != 0; length--)
        *bytes++ = (unsigned char)value;
    for (; length >= BLOCK; length -= BLOCK, bytes += BLOCK) {
        word *block = (word *)bytes;
        block[0] = block[1] = block[2] = block[3] = words;
    }
    while (length-- > 0)
        *bytes++ = (unsigned char)value;
    return to;
}

/* From the lowest byte up. */
static void copy_up(unsigned char *to, const unsigned char *from, size_t length)
{
    if ((uintptr_t)to % WORD == 0 && (uintptr_t)from % WORD == 0)
        for (; length >= WORD; length -= WORD, to += WORD, from += WORD)
            *(word *)to = *(const word *)from;
    while (length-- > 0)
        *to++ = *from++;
}

static void copy_down(unsigned char *to, const unsigned char *from, size_t length)
{
    while (length-- > 0)
        to[length] = from[length];
}

void *memcpy(void *restrict to, const void *restrict from, size_t length)
{
    copy_up(to, from, length);
    return to;
}

void *memmove(void *to, const void *from, size_t length)
{
    if ((uintptr_t)to <= (uintptr_t)from)
        copy_up(to, from, length);
    else
        copy_down(to, from, length);
    return to;
}

int memcmp(const void *left, const void *right, size_t length)
{
    const unsigned char *a = left, *b = right;

    for (; length > 0; a++, b++, length--)
        if (*a != *b)
            return *a - *b;
    return 0;
}
