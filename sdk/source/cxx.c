/* What compilers of C++ call by these names, for programs with picolibc. */
#include <stdlib.h>

/* operator new(size_t): it ends the program where there is no memory, since there are no exceptions. */
void *_Znwj(size_t size)
{
    void *memory = malloc(size == 0 ? 1 : size);

    if (memory == NULL)
        abort();
    return memory;
}

/* operator new[](size_t) */
void *_Znaj(size_t size)
{
    return _Znwj(size);
}

/* operator delete(void *) */
void _ZdlPv(void *memory)
{
    free(memory);
}

/* operator delete(void *, size_t) */
void _ZdlPvj(void *memory, size_t size)
{
    (void)size;
    free(memory);
}

/* operator delete[](void *) */
void _ZdaPv(void *memory)
{
    free(memory);
}

/* operator delete[](void *, size_t) */
void _ZdaPvj(void *memory, size_t size)
{
    (void)size;
    free(memory);
}
