/* Without a C library: constructors, thread-local storage, and what compilers call by themselves. */
#include "check.h"

enum { MOST_ROUTINES = 32 };

int atexit(void (*routine)(void));

struct large { uint32_t words[64]; };

static uint32_t order, routines_run;
static __thread uint32_t counted = 5;
static uint8_t stack[4096] __attribute__((aligned(16)));
static volatile uint32_t size = 200;
static volatile int64_t dividend = -1234567890123456789, divisor = 9876543210;
static volatile uint64_t large_dividend = 0xfedcba9876543210, large_divisor = 0x8000000000000001;

static void run_early(void)
{
    order = order * 10 + 1;
}

__attribute__((section(".preinit_array"), used)) static void (*early)(void) = run_early;

__attribute__((constructor(200))) static void run_first(void)
{
    order = order * 10 + 2;
}

__attribute__((constructor)) static void run_second(void)
{
    order = order * 10 + 3;
}

__attribute__((destructor)) static void run_last(void)
{
    fsu_write(1, "last\n", 5);
}

static void run_before(void)
{
    routines_run++;
}

static void run_after(void)
{
    CHECK(routines_run == MOST_ROUTINES - 1);
    fsu_write(1, "registered first\n", 17);
}

static void check_routines(void)
{
    CHECK(atexit(run_after) == 0);
    for (uint32_t i = 1; i < MOST_ROUTINES; i++)
        CHECK(atexit(run_before) == 0);
    CHECK(atexit(run_before) != 0);
}

static void check_divisions(void)
{
    CHECK(dividend / divisor == -124999998);
    CHECK(dividend % divisor == -8626543209);
    CHECK(-dividend / -divisor == -124999998);
    CHECK(-dividend % -divisor == 8626543209);
    CHECK((uint64_t)-dividend / (uint64_t)divisor == 124999998);
    CHECK((uint64_t)-dividend % (uint64_t)divisor == 8626543209);
    CHECK(large_dividend / large_divisor == 1);
    CHECK(large_dividend % large_divisor == 0x7edcba987654320f);
    CHECK(large_dividend / (uint64_t)divisor == 1859431802);
    CHECK(large_divisor / 10 == 922337203685477580 && large_divisor % 10 == 9);
}

static void check_memory(void)
{
    struct large one, other;
    char bytes[256];

    __builtin_memset(&one, 7, sizeof one);
    other = one;
    CHECK(__builtin_memcmp(&one, &other, size) == 0 && other.words[63] == 0x07070707);
    for (uint32_t i = 0; i < sizeof bytes; i++)
        bytes[i] = (char)i;
    __builtin_memmove(bytes + 3, bytes, size);
    CHECK(bytes[3] == 0 && bytes[202] == (char)199 && bytes[203] == (char)203);
    __builtin_memmove(bytes, bytes + 3, size);
    CHECK(bytes[0] == 0 && bytes[199] == (char)199);
    __builtin_memcpy(bytes, &one, size);
    CHECK(bytes[199] == 7 && bytes[200] == (char)197);
    bytes[5] = 6;
    CHECK(__builtin_memcmp(bytes, &one, size) < 0 && __builtin_memcmp(&one, bytes, size) > 0);
}

static uint32_t count(uint32_t more)
{
    counted += more;
    return counted;
}

static void check_storage(void)
{
    counted = 100;
    fsu_answer made = fsu_create_with_storage(count, 3, stack, sizeof stack, 0);
    CHECK(made.error == 0);
    CHECK(fsu_join(made.value).value == 8);
    CHECK(counted == 100);
    CHECK(fsu_create_with_storage(count, 3, stack, 64, 0).error == FSU_EINVAL);
    CHECK(fsu_create_with_storage(count, 3, stack + 4, sizeof stack - 16, 0).error == FSU_EINVAL);
}

int main(int argc, char **argv)
{
    CHECK(order == 123);
    CHECK(argc == 1 && argv[0][0] != '\0' && argv[1] == 0);
    check_divisions();
    check_memory();
    check_storage();
    check_routines();
    return 0;
}
