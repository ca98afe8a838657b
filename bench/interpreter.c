/* A plain interpreter of RV32IM for comparison: one thread, no trace. It takes each word apart anew, and one switch
   over opcodes says what is done. It has the window, the start and the budget of fsu_replay, and of its calls those
   that the programs of bench/run make: write (64) and exit (93); any other is answered -38.

   Build: gcc -O2 interpreter.c -o interpreter        Run: interpreter IMAGE
   On standard error stands how the run ended: 'exit', 'fault' or 'budget' with a value, and the instructions made. */
#include <stdint.h>
#include <stdio.h>
#include <stdlib.h>
#include <string.h>

enum { BASE = 0x10000, SIZE = 4194304, BUDGET = 1000000, MOST = 16777216 };
enum { ILLEGAL = 4, TRAP = 5, MISALIGNED = 7, OUTSIDE = 11 };

static uint8_t file[MOST], memory[SIZE];
static uint32_t x[32], pc, made;

_Noreturn static void stop(const char *how, uint32_t value)
{
    fflush(stdout);
    fprintf(stderr, "%s %u instructions %u\n", how, value, made);
    exit(0);
}

static inline int is_inside(uint32_t address, uint32_t length)
{
    return address >= BASE && (uint64_t)address + length <= (uint64_t)BASE + SIZE;
}

/* The place of a load or a store in memory. */
static inline uint8_t *place(uint32_t address, uint32_t width)
{
    if ((address & (width - 1)) != 0)
        stop("fault", MISALIGNED);
    if (!is_inside(address, width))
        stop("fault", OUTSIDE);
    return &memory[address - BASE];
}

static inline uint32_t load_byte(uint32_t address)
{
    return *place(address, 1);
}

static inline uint32_t load_half(uint32_t address)
{
    uint16_t half;
    memcpy(&half, place(address, 2), sizeof half);
    return half;
}

static inline uint32_t load_word(uint32_t address)
{
    uint32_t word;
    memcpy(&word, place(address, 4), sizeof word);
    return word;
}

static uint32_t divide(uint32_t a, uint32_t b)
{
    if (b == 0)
        return UINT32_MAX;
    if (a == 0x80000000 && b == UINT32_MAX)
        return a;
    return (uint32_t)((int32_t)a / (int32_t)b);
}

static uint32_t remain(uint32_t a, uint32_t b)
{
    if (b == 0)
        return a;
    if (a == 0x80000000 && b == UINT32_MAX)
        return 0;
    return (uint32_t)((int32_t)a % (int32_t)b);
}

static uint32_t shift_right_signed(uint32_t a, uint32_t count)
{
    return (uint32_t)((int32_t)a >> (count & 31));
}

/* What the instructions of opcode 0x13 and, with f7 0 and 0x20, of 0x33 compute. */
static inline uint32_t compute(uint32_t f3, uint32_t f7, uint32_t a, uint32_t b)
{
    switch (f3) {
    case 0: return f7 ? a - b : a + b;
    case 1: return a << (b & 31);
    case 2: return (int32_t)a < (int32_t)b;
    case 3: return a < b;
    case 4: return a ^ b;
    case 5: return f7 ? shift_right_signed(a, b) : a >> (b & 31);
    case 6: return a | b;
    default: return a & b;
    }
}

static inline uint32_t multiply(uint32_t f3, uint32_t a, uint32_t b)
{
    switch (f3) {
    case 0: return a * b;
    case 1: return (uint32_t)((int64_t)(int32_t)a * (int32_t)b >> 32);
    case 2: return (uint32_t)((int64_t)(int32_t)a * (int64_t)b >> 32);
    case 3: return (uint32_t)((uint64_t)a * b >> 32);
    case 4: return divide(a, b);
    case 5: return b ? a / b : UINT32_MAX;
    case 6: return remain(a, b);
    default: return b ? a % b : a;
    }
}

static inline int is_taken(uint32_t f3, uint32_t a, uint32_t b)
{
    switch (f3) {
    case 0: return a == b;
    case 1: return a != b;
    case 4: return (int32_t)a < (int32_t)b;
    case 5: return (int32_t)a >= (int32_t)b;
    case 6: return a < b;
    case 7: return a >= b;
    default: stop("fault", ILLEGAL);
    }
}

static void call(void)
{
    switch (x[17]) {
    case 64:
        if (x[10] != 1 && x[10] != 2) {
            x[10] = -9;
        } else if (x[12] && !is_inside(x[11], x[12])) {
            x[10] = -14;
        } else {
            fwrite(&memory[x[12] ? x[11] - BASE : 0], 1, x[12], x[10] == 1 ? stdout : stderr);
            x[10] = x[12];
        }
        break;
    case 93:
        stop("exit", x[10] & 255);
        break;
    default:
        x[10] = -38;
    }
}

static inline void step(void)
{
    if (!is_inside(pc, 4))
        stop("fault", OUTSIDE);
    uint32_t word;
    memcpy(&word, &memory[pc - BASE], sizeof word);
    uint32_t rd = word >> 7 & 31, f3 = word >> 12 & 7, f7 = word >> 25;
    uint32_t a = x[word >> 15 & 31], b = x[word >> 20 & 31];
    int32_t i = (int32_t)word >> 20;
    uint32_t next = pc + 4;
    switch (word & 127) {
    case 0x37:
        x[rd] = word & 0xfffff000;
        break;
    case 0x17:
        x[rd] = pc + (word & 0xfffff000);
        break;
    case 0x6f:
        x[rd] = next;
        next = pc + (((int32_t)word >> 31 << 20) | (word & 0xff000) | (word >> 9 & 0x800) | (word >> 20 & 0x7fe));
        break;
    case 0x67:
        if (f3 != 0)
            stop("fault", ILLEGAL);
        x[rd] = next;
        next = (a + i) & ~1u;
        break;
    case 0x63:
        if (is_taken(f3, a, b))
            next = pc + (((int32_t)word >> 31 << 12) | (word << 4 & 0x800) | (word >> 20 & 0x7e0) | (word >> 7 & 0x1e));
        break;
    case 0x03:
        switch (f3) {
        case 0: x[rd] = (uint32_t)(int8_t)load_byte(a + i); break;
        case 1: x[rd] = (uint32_t)(int16_t)load_half(a + i); break;
        case 2: x[rd] = load_word(a + i); break;
        case 4: x[rd] = load_byte(a + i); break;
        case 5: x[rd] = load_half(a + i); break;
        default: stop("fault", ILLEGAL);
        }
        break;
    case 0x23:
        a += (uint32_t)(i & ~31) + rd;
        switch (f3) {
        case 0: memcpy(place(a, 1), &b, 1); break;
        case 1: memcpy(place(a, 2), &b, 2); break;
        case 2: memcpy(place(a, 4), &b, 4); break;
        default: stop("fault", ILLEGAL);
        }
        break;
    case 0x13:
        if ((f3 == 1 && f7 != 0) || (f3 == 5 && f7 != 0 && f7 != 0x20))
            stop("fault", ILLEGAL);
        x[rd] = compute(f3, f3 == 5 ? f7 : 0, a, (uint32_t)i);
        break;
    case 0x33:
        if (f7 == 1)
            x[rd] = multiply(f3, a, b);
        else if (f7 == 0 || (f7 == 0x20 && (f3 == 0 || f3 == 5)))
            x[rd] = compute(f3, f7, a, b);
        else
            stop("fault", ILLEGAL);
        break;
    case 0x0f:
        if (f3 != 0)
            stop("fault", ILLEGAL);
        break;
    case 0x73:
        if (word != 0x73)
            stop("fault", word == 0x100073 ? TRAP : ILLEGAL);
        call();
        break;
    default:
        stop("fault", ILLEGAL);
    }
    if (next % 4 != 0)
        stop("fault", MISALIGNED);
    x[0] = 0;
    pc = next;
}

static uint32_t word_at(size_t offset)
{
    uint32_t word;
    memcpy(&word, &file[offset], 4);
    return word;
}

/* Copies the segments into memory. The file is taken for an image that fsu_replay accepts. */
static int read_image(const char *name)
{
    FILE *stream = fopen(name, "rb");
    if (!stream)
        return 0;
    size_t length = fread(file, 1, sizeof file, stream);
    fclose(stream);
    if (length < 52)
        return 0;
    pc = word_at(24);
    for (uint32_t at = word_at(28), left = word_at(44) & 0xffff; left > 0; at += 32, left--) {
        if ((uint64_t)at + 32 > length)
            return 0;
        uint32_t offset = word_at(at + 4), address = word_at(at + 8), filled = word_at(at + 16);
        if (word_at(at) != 1 || filled == 0)
            continue;
        if ((uint64_t)offset + filled > length || !is_inside(address, filled))
            return 0;
        memcpy(&memory[address - BASE], &file[offset], filled);
    }
    return 1;
}

int main(int count, char **words)
{
    if (count != 2 || !read_image(words[1])) {
        fprintf(stderr, "interpreter: one word, the name of an image\n");
        return 2;
    }
    x[1] = 0xffffffd0;
    x[2] = BASE + SIZE;
    while (made < BUDGET) {
        made++;
        step();
    }
    stop("budget", BUDGET);
}
