/* picolibc: printing, memory, errors and the end of the process. */
#include "check.h"
#include <errno.h>
#include <pthread.h>
#include <stdio.h>
#include <stdlib.h>
#include <string.h>

static int compare(const void *one, const void *other)
{
    return *(const char *)one - *(const char *)other;
}

static char *sorted_letters(void)
{
    static char letters[] = "replay";

    qsort(letters, strlen(letters), 1, compare);
    return letters;
}

static void check_printing(void)
{
    char text[32];

    CHECK(printf("%d %5.2f %s %lld %#x\n", -42, 3.14159, "text", 1234567890123456789LL, 255) == 40);
    CHECK(puts("a line") >= 0);
    CHECK(fputs("no line feed", stdout) >= 0 && putchar('\n') == '\n');
    CHECK(fwrite("items\n", 2, 3, stdout) == 3);
    CHECK(fprintf(stderr, "an error\n") == 9);
    CHECK(snprintf(text, sizeof text, "%04d|%-3s|", 7, "x") == 9 && strcmp(text, "0007|x  |") == 0);
    printf("%s %300d\n", sorted_letters(), 1);
}

static void check_memory(void)
{
    char *blocks[3];
    char *volatile too_large;

    for (int i = 0; i < 3; i++) {
        blocks[i] = malloc(100000);
        CHECK(blocks[i] != NULL);
    }
    too_large = malloc(4000000);
    CHECK(too_large == NULL);
    for (int i = 0; i < 3; i++)
        free(blocks[i]);
    char *zeros = calloc(100, 4);
    CHECK(zeros != NULL && zeros[399] == 0);
    zeros = realloc(zeros, 2000);
    CHECK(zeros != NULL && zeros[0] == 0);
    free(zeros);
}

static void *set_error(void *argument)
{
    int before = errno;

    errno = ERANGE;
    return argument == NULL ? NULL : (void *)(before + 1);
}

static void check_errors(void)
{
    pthread_t thread;
    void *value;

    errno = EDEADLK;
    perror("perror");
    CHECK(strcmp(strerror(ENOSYS), "Function not implemented") == 0);
    CHECK(EDEADLK == FSU_EDEADLK && ENOSYS == FSU_ENOSYS && ETIMEDOUT == FSU_ETIMEDOUT && EAGAIN == FSU_EAGAIN);
    errno = EBUSY;
    CHECK(pthread_create(&thread, NULL, set_error, &value) == 0 && pthread_join(thread, &value) == 0);
    CHECK(value == (void *)1 && errno == EBUSY);
    errno = 0;
    CHECK(strtol("99999999999", NULL, 10) == 2147483647 && errno == ERANGE);
}

static void say_first(void)
{
    puts("registered first, runs last");
}

static void say_second(void)
{
    puts("registered last, runs first");
}

int main(void)
{
    check_printing();
    check_memory();
    check_errors();
    CHECK(atexit(say_first) == 0 && atexit(say_second) == 0);
    exit(0);
}
