/* What happens before main. */
#include "kit.h"

int main(int count, char **words, char **environment);
void exit(int value) __attribute__((noreturn));
void *memcpy(void *restrict to, const void *restrict from, size_t length);
void *memset(void *to, int value, size_t length);

static char *no_environment[1];
char **environ = no_environment;

void fsu_fill_storage(char *storage)
{
    memcpy(storage, fsu_layout.tls_start, fsu_layout.tls_filled);
    memset(storage + fsu_layout.tls_filled, 0, fsu_layout.tls_size - fsu_layout.tls_filled);
}

static void run_all(fsu_plain_routine **first, fsu_plain_routine **end)
{
    while (first != end)
        (*first++)();
}

/* There are no arguments: main sees a name of the program alone. */
__attribute__((noreturn)) void fsu_begin(char *storage)
{
    static char name[] = "program";
    static char *words[] = { name, NULL };

    fsu_fill_storage(storage);
    run_all(fsu_layout.preinit, fsu_layout.preinit_end);
    run_all(fsu_layout.init, fsu_layout.init_end);
    exit(main(1, words, environ));
}
