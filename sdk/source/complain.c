#include "kit.h"

enum { LINE = 120, DIGITS = 10 };

static uint32_t put_number(char *line, uint32_t used, uint32_t number)
{
    char digits[DIGITS];
    uint32_t count = 0;

    do {
        digits[count++] = (char)('0' + number % 10);
        number /= 10;
    } while (number != 0);
    while (count > 0)
        line[used++] = digits[--count];
    return used;
}

void fsu_complain(const char *text, uint32_t first, uint32_t second)
{
    char line[LINE] = "fsu: ";
    uint32_t used = 5;

    for (; *text != '\0' && used < LINE - DIGITS - 1; text++) {
        if (*text != '%') {
            line[used++] = *text;
            continue;
        }
        used = put_number(line, used, first);
        first = second;
    }
    line[used++] = '\n';
    fsu_write(2, line, used);
}
