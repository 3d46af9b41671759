/* What a target makes of operations on floats that the library leans on: sums and differences as the library has them, products,
 * quotients and conversions as the compiler has them, on PAIRS pairs of bits. Every million pairs, and at the end, it says one number
 * for each operation, in which every bit of every result counts; a NaN counts as one number. Two targets that say the same agree. */
#include "../../portable/c/dartelm.c"

#ifdef BOARD
#include "board.h"
#else
#include <stdio.h>
static void say(const char *text)
{
    fputs(text, stdout);
}
#endif

enum { OPERATIONS = 8, REPORTED = 1000000 };
static const char *const names[OPERATIONS] = { "sum", "difference", "product", "quotient", "from float", "from signed", "from unsigned",
                                               "quotient of floats" };
static uint64_t counted[OPERATIONS], state = 0x9e3779b97f4a7c15u;

static uint64_t next(void)
{
    state ^= state << 13;
    state ^= state >> 7;
    state ^= state << 17;
    return state;
}

/* Any bits, or the other's exponent, few digits, a subnormal number, or an exponent near the other's. */
static uint64_t drawn(uint64_t other)
{
    uint64_t bits = next();
    switch (bits >> 13 & 7) {
    case 0: return (bits & 0x800fffffffffffffu) | (other & 0x7ff0000000000000u);
    case 1: return bits & 0xffffff0000000000u;
    case 2: return bits & 0x800fffffffffffffu;
    case 3: return (bits & 0x800fffffffffffffu) | ((((other >> 52) + (bits & 0x7f) - 64) & 0x7ff) << 52);
    case 4: return bits >> (bits & 0x3f);
    default: return bits;
    }
}

static double double_of(uint64_t bits)
{
    double x;
    memcpy(&x, &bits, sizeof x);
    return x;
}

static float float_of(uint32_t bits)
{
    float x;
    memcpy(&x, &bits, sizeof x);
    return x;
}

static void count(int operation, double result)
{
    uint64_t bits;
    memcpy(&bits, &result, sizeof bits);
    if ((bits & 0x7fffffffffffffffu) > 0x7ff0000000000000u)
        bits = 1;
    counted[operation] = (counted[operation] << 7 | counted[operation] >> 57) ^ bits;
}

static void count_all(uint64_t a, uint64_t b)
{
    volatile double x = double_of(a), y = double_of(b), product = x * y, quotient = x / y;
    volatile float f = float_of((uint32_t)a), g = float_of((uint32_t)b), divided = f / g;
    volatile int64_t whole = (int64_t)a;
    volatile uint64_t large = b;
    count(0, dm_double_add(x, y));
    count(1, dm_double_sub(x, y));
    count(2, product);
    count(3, quotient);
    count(4, (double)f);
    count(5, (double)whole);
    count(6, (double)large);
    count(7, (double)divided);
}

static void say_all(void)
{
    static const char digits[] = "0123456789abcdef";
    for (int i = 0; i < OPERATIONS; i++) {
        char text[18];
        for (int j = 0; j < 16; j++)
            text[j] = digits[counted[i] >> (60 - 4 * j) & 15];
        text[16] = '\n';
        text[17] = '\0';
        say(names[i]);
        say(" ");
        say(text);
    }
}

int main(void)
{
    uint64_t a = next();
    for (uint32_t pair = 1; pair <= PAIRS; pair++) {
        uint64_t b = drawn(a);
        count_all(a, b);
        a = drawn(b);
        if (pair % REPORTED == 0)
            say_all();
    }
    say_all();
    return 0;
}
