/* sums [PAIRS]: sums and differences of doubles by integers, as dartelm.c has them for cores without double hardware, against the
 * processor's, bit for bit. Prints the first pair that differs, and ends with 1. Compiled with -DDARTELM_SOFT_SUMS. */
#include "c/dartelm.c"
#include <stdio.h>
#include <stdlib.h>

static uint64_t state = 0x9e3779b97f4a7c15u;

static uint64_t next(void)
{
    state ^= state << 13;
    state ^= state >> 7;
    state ^= state << 17;
    return state;
}

/* Any bits; or exponents near each other, few digits, and the edges of the exponent, where rounding goes wrong. */
static uint64_t drawn(uint64_t other)
{
    uint64_t bits = next();
    switch (next() % 8u) {
    case 0: return bits;
    case 1: return (bits & 0x800fffffffffffffu) | (other & 0x7ff0000000000000u);
    case 2: return bits & 0xfff0000000000000u;
    case 3: return bits & 0x800fffffffffffffu;
    case 4: return bits | 0x7ff0000000000000u;
    case 5: return other ^ 0x8000000000000000u ^ (bits & 0xffu);
    default: return (bits & 0x800fffffffffffffu) | ((((other >> 52) + next() % 129u - 64u) & 0x7ffu) << 52);
    }
}

static int same(uint64_t x, uint64_t y)
{
    uint64_t infinite = 0x7ff0000000000000u, rest = 0x7fffffffffffffffu;
    return x == y || ((x & rest) > infinite && (y & rest) > infinite);
}

int main(int count, char **words)
{
    unsigned long pairs = count > 1 ? strtoul(words[1], 0, 10) : 100000000ul;
    for (unsigned long n = 0; n < pairs; n++) {
        uint64_t a = drawn(next()), b = drawn(a), bits[4];
        double x, y, z[4];
        memcpy(&x, &a, 8);
        memcpy(&y, &b, 8);
        z[0] = x + y, z[1] = dm_double_add(x, y), z[2] = x - y, z[3] = dm_double_sub(x, y);
        memcpy(bits, z, sizeof z);
        if (!same(bits[0], bits[1]) || !same(bits[2], bits[3])) {
            printf("%016llx %016llx\n", (unsigned long long)a, (unsigned long long)b);
            return 1;
        }
    }
    printf("%lu pairs, sums and differences alike\n", pairs);
    return 0;
}
