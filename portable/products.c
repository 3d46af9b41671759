/* Sums over BLOCKS blocks of 1,048,576 pairs of doubles of what a C library, or a processor, gives for products, quotients,
 * a float and a 64-bit integer as a double. The same program for two processors prints the same lines where they agree. */
#include <stdint.h>
#include <stdio.h>
#include <string.h>

static uint64_t state = 0x9e3779b97f4a7c15u;

static uint64_t next(void)
{
    state ^= state << 13;
    state ^= state >> 7;
    state ^= state << 17;
    return state;
}

static double as_double(uint64_t bits)
{
    double x;
    memcpy(&x, &bits, sizeof x);
    return x;
}

/* Every NaN is one. */
static uint64_t bits_of(volatile double x)
{
    double y = x;
    uint64_t bits;
    memcpy(&bits, &y, sizeof bits);
    return (bits & 0x7fffffffffffffffu) > 0x7ff0000000000000u ? 0x7ff8000000000000u : bits;
}

/* Any bits, few digits, near 1, small and large, subnormal. */
static uint64_t drawn(void)
{
    uint64_t bits = next(), how = next() % 8u;
    if (how < 2u) {
        return bits;
    }
    if (how == 2u) {
        return bits & 0xfff0000000000000u;
    }
    if (how == 3u) {
        return bits & 0x801fffffffffffffu;
    }
    if (how == 4u) {
        return bits & 0xfffffffff0000000u;
    }
    return (bits & 0x800fffffffffffffu) | ((0x3ffu + next() % 81u - 40u) << 52);
}

#if defined(__arm__)
/* For a bare board: its stack and where it starts. */
extern void _start(void);
__attribute__((section(".vectors"), used)) static void *const vectors[2] = {(void *)0x3ff000, (void *)_start};
#endif

int main(void)
{
    for (long n = 0; n < BLOCKS; n++) {
        uint64_t sum = 0;
        for (uint32_t i = 0; i < 1048576u; i++) {
            uint64_t a = drawn(), b = drawn();
            uint32_t single = (uint32_t)(a >> 32);
            float f;
            int64_t whole = (int64_t)(a >> 10) - ((int64_t)1 << 53);
            memcpy(&f, &single, sizeof f);
            sum = sum * 31u + bits_of(as_double(a) * as_double(b));
            sum = sum * 31u + bits_of(as_double(a) / as_double(b));
            sum = sum * 31u + bits_of((double)f);
            sum = sum * 31u + bits_of((double)whole);
        }
        printf("%ld %016llx\n", n, (unsigned long long)sum);
        fflush(stdout);
    }
    return 0;
}
