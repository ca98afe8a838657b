/* Five bodies that draw each other, in whole numbers of 1/65,536, for 200 steps. */
#include "print.h"

enum { COUNT = 5, STEPS = 200, ONE = 65536 };

typedef struct { int32_t place[3], speed[3], mass; } body;

static body bodies[COUNT] = {
    { { 0, 0, 0 }, { 0, 0, 0 }, 40 * ONE },
    { { 5 * ONE, -ONE, -ONE / 10 }, { ONE / 2, 2 * ONE, -ONE / 16 }, ONE / 25 },
    { { 8 * ONE, 4 * ONE, -ONE / 2 }, { -ONE, ONE + ONE / 2, ONE / 100 }, ONE / 80 },
    { { 12 * ONE, -15 * ONE, -ONE / 4 }, { ONE, ONE / 2, -ONE / 100 }, ONE / 500 },
    { { 15 * ONE, -25 * ONE, ONE / 5 }, { ONE, ONE / 2, -ONE / 30 }, ONE / 400 },
};

static int32_t product(int32_t a, int32_t b)
{
    return (int32_t)((int64_t)a * b >> 16);
}

static uint32_t root(uint32_t number)
{
    uint32_t found = 0;
    for (uint32_t bit = 1u << 30; bit; bit >>= 2) {
        uint32_t tried = found + bit;
        found >>= 1;
        if (number >= tried) {
            number -= tried;
            found += bit;
        }
    }
    return found;
}

static void draw(body *one, body *other)
{
    int32_t apart[3], square = 0;
    for (int i = 0; i < 3; i++) {
        apart[i] = one->place[i] - other->place[i];
        square += product(apart[i], apart[i]);
    }
    int32_t distance = (int32_t)root((uint32_t)square) << 8;
    int32_t weight = ONE * 16 / (product(square >> 4, distance) / ONE + 1);
    for (int i = 0; i < 3; i++) {
        int32_t pull = product(apart[i], weight);
        one->speed[i] -= product(pull, other->mass) >> 8;
        other->speed[i] += product(pull, one->mass) >> 8;
    }
}

int main(void)
{
    uint32_t sum = 0;
    for (int step = 0; step < STEPS; step++) {
        for (int i = 0; i < COUNT; i++)
            for (int j = i + 1; j < COUNT; j++)
                draw(&bodies[i], &bodies[j]);
        for (int i = 0; i < COUNT; i++)
            for (int k = 0; k < 3; k++)
                bodies[i].place[k] += bodies[i].speed[k] >> 6;
    }
    for (int i = 0; i < COUNT; i++)
        for (int k = 0; k < 3; k++)
            sum = (sum * 31 + (uint32_t)bodies[i].place[k]) * 31 + (uint32_t)bodies[i].speed[k];
    print_word(sum);
    return 0;
}
