/* The standard streams for picolibc. Nothing is kept back: what one call of fputs or fwrite writes goes out as one
   write of the kernel, and so does what printf or puts writes, up to GATHERED bytes, and each single character. So
   lines of several threads do not mix, and nothing is lost where a program ends by a fault or by waiting. The linker
   puts the __wrap functions in the place of picolibc's, which are the __real ones (--wrap). */
#include "kit.h"
#include <errno.h>
#include <stdarg.h>
#include <stdio.h>
#include <string.h>

enum { GATHERED = 256 };

struct stream {
    FILE file;                  /* first: picolibc gives a pointer to it back */
    uint32_t descriptor;
};

struct gather {
    FILE file;                  /* first, as above */
    uint32_t descriptor;
    uint32_t used;
    char bytes[GATHERED];
};

static int send(uint32_t descriptor, const void *bytes, uint32_t length)
{
    int32_t answer = fsu_write(descriptor, bytes, length);

    if (answer >= 0)
        return 0;
    errno = -answer;
    return EOF;
}

static int put_at_once(char byte, FILE *file)
{
    return send(((struct stream *)file)->descriptor, &byte, 1) == 0 ? (unsigned char)byte : EOF;
}

static int get_one(FILE *file)
{
    unsigned char byte;
    int32_t count = fsu_read(((struct stream *)file)->descriptor, &byte, 1);

    if (count == 1)
        return byte;
    if (count == 0)
        return _FDEV_EOF;
    errno = -count;
    return _FDEV_ERR;
}

static struct stream input = { FDEV_SETUP_STREAM(NULL, get_one, NULL, _FDEV_SETUP_READ), 0 };
static struct stream output = { FDEV_SETUP_STREAM(put_at_once, NULL, NULL, _FDEV_SETUP_WRITE), 1 };
static struct stream errors = { FDEV_SETUP_STREAM(put_at_once, NULL, NULL, _FDEV_SETUP_WRITE), 2 };

FILE *const stdin = &input.file;
FILE *const stdout = &output.file;
FILE *const stderr = &errors.file;

int __real_vfprintf(FILE *file, const char *format, va_list arguments);
int __real_fputs(const char *text, FILE *file);
size_t __real_fwrite(const void *items, size_t size, size_t count, FILE *file);

static int is_console(FILE *file)
{
    return file == stdout || file == stderr;
}

static int flush(struct gather *gather)
{
    int answer = gather->used == 0 ? 0 : send(gather->descriptor, gather->bytes, gather->used);

    gather->used = 0;
    return answer;
}

static int put_gathered(char byte, FILE *file)
{
    struct gather *gather = (struct gather *)file;

    if (gather->used == GATHERED && flush(gather) != 0)
        return EOF;
    gather->bytes[gather->used++] = byte;
    return (unsigned char)byte;
}

int __wrap_vfprintf(FILE *file, const char *format, va_list arguments)
{
    struct gather gather;

    if (!is_console(file))
        return __real_vfprintf(file, format, arguments);
    gather.file = (FILE)FDEV_SETUP_STREAM(put_gathered, NULL, NULL, _FDEV_SETUP_WRITE);
    gather.descriptor = ((struct stream *)file)->descriptor;
    gather.used = 0;
    int count = __real_vfprintf(&gather.file, format, arguments);
    return flush(&gather) == 0 ? count : EOF;
}

int __wrap_fputs(const char *text, FILE *file)
{
    if (!is_console(file))
        return __real_fputs(text, file);
    return send(((struct stream *)file)->descriptor, text, strlen(text));
}

int __wrap_puts(const char *text)
{
    return fprintf(stdout, "%s\n", text) < 0 ? EOF : 0;
}

size_t __wrap_fwrite(const void *items, size_t size, size_t count, FILE *file)
{
    if (!is_console(file))
        return __real_fwrite(items, size, count, file);
    return send(((struct stream *)file)->descriptor, items, size * count) == 0 ? count : 0;
}
