#include "dartelm.h"
#include <float.h>
#include <stdbool.h>
#include <string.h>

/* A float operation must round once, to its own type, to nearest. What follows refuses a compiler that was told otherwise. */
#if defined(__FAST_MATH__) || (defined(__FINITE_MATH_ONLY__) && __FINITE_MATH_ONLY__) || defined(__ASSOCIATIVE_MATH__) || \
    defined(__RECIPROCAL_MATH__) || defined(__NO_SIGNED_ZEROS__)
#error "Dartelm: -ffast-math, or a part of it, changes what a reading gives"
#endif
#if !defined(FLT_EVAL_METHOD) || FLT_EVAL_METHOD != 0
#error "Dartelm: float operations must round to their own type (FLT_EVAL_METHOD 0; on x86 -msse2 -mfpmath=sse)"
#endif
#if FLT_RADIX != 2 || FLT_MANT_DIG != 24 || FLT_MAX_EXP != 128 || DBL_MANT_DIG != 53 || DBL_MAX_EXP != 1024
#error "Dartelm: float and double must be IEEE 754's binary32 and binary64"
#endif

#if defined(__GNUC__) && !defined(__clang__)
/* An enum is copied whole, with the bytes that its variant does not have. */
#pragma GCC diagnostic ignored "-Wmaybe-uninitialized"
#endif

/* The machine that the proof is about lays a type so; C has to lay it alike. */
#define DM_JOIN(a, b) a##b
#define DM_SIZE(type, bytes) typedef char DM_JOIN(dm_size_of_, type)[sizeof(type) == (bytes) ? 1 : -1]

/* Small functions go where they are called, loops whose turns are known are unrolled, and a number whose bytes are stored is kept
 * whole until then, so that one store has them, on processors with large caches; elsewhere the compiler weighs flash against time,
 * and in the programs the time to compile them counts. */
#if defined(__GNUC__) && defined(__OPTIMIZE__) && !defined(__OPTIMIZE_SIZE__) && !defined(DARTELM_COMPILE_FAST) && \
    (defined(__x86_64__) || defined(__aarch64__))
#define DM_SMALL static inline __attribute__((always_inline))
#define DM_UNROLLED _Pragma("GCC unroll 32")
#define DM_WHOLE(number) __asm__("" : "+r"(number))
#else
#define DM_SMALL static
#define DM_UNROLLED
#define DM_WHOLE(number) (void)(number)
#endif

static inline float dm_float_from_bits(uint32_t bits)
{
    float x;
    memcpy(&x, &bits, sizeof x);
    return x;
}

static inline double dm_double_from_bits(uint64_t bits)
{
    double x;
    memcpy(&x, &bits, sizeof x);
    return x;
}

static inline uint32_t dm_float_bits(float x)
{
    uint32_t bits;
    memcpy(&bits, &x, sizeof bits);
    return bits;
}

static inline uint64_t dm_double_bits(double x)
{
    uint64_t bits;
    memcpy(&bits, &x, sizeof bits);
    return bits;
}

/* What a float operation gives goes through a volatile, and a divisor too, so that no compiler rounds two operations at once
 * (-ffp-contract), regroups them or multiplies by a reciprocal, whatever it was told and does not tell of.
 *
 * Sums of doubles. An Arm core without double hardware adds by integers: libgcc's __aeabi_dsub misrounds some differences of numbers
 * whose exponents are 33 apart (gcc-arm-none-eabi 12.2, Cortex-M3 and M4). With DARTELM_SOFT_SUMS any core does. */
#if defined(DARTELM_SOFT_SUMS) || (defined(__arm__) && !(defined(__ARM_FP) && (__ARM_FP & 8)))
/* The sum of two doubles by their bits, rounded to nearest, ties to even. The larger magnitude is a, with 3 bits more behind its
 * last: the lowest of them says whether anything was shifted out. */
static uint64_t dm_sum_of_bits(uint64_t a, uint64_t b)
{
    const uint64_t sign_bit = (uint64_t)1 << 63, infinite = (uint64_t)0x7ff << 52, one = (uint64_t)1 << 52;
    uint64_t x = a & ~sign_bit, y = b & ~sign_bit, m, n, sum;
    uint32_t exponent, shift;
    if (x > infinite || y > infinite) {
        return infinite | (one >> 1);
    }
    if (x < y) {
        sum = a, a = b, b = sum;
        sum = x, x = y, y = sum;
    }
    if (x == infinite) {
        return y == infinite && ((a ^ b) & sign_bit) ? infinite | (one >> 1) : a;
    }
    if (y == 0) {
        return x == 0 ? a & b : a;
    }
    exponent = (uint32_t)(x >> 52);
    shift = (uint32_t)(y >> 52);
    m = (exponent ? (x & (one - 1)) | one : x) << 3;
    n = (shift ? (y & (one - 1)) | one : y) << 3;
    exponent += !exponent;
    shift = exponent - (shift + !shift);
    if (shift > 60) {
        n = 1;
    } else if (shift) {
        n = (n >> shift) | ((n << (64 - shift)) != 0);
    }
    if ((a ^ b) & sign_bit) {
        m -= n;
        if (m == 0) {
            return 0;
        }
        while (m < one << 3 && exponent > 1) {
            m <<= 1;
            exponent--;
        }
    } else {
        m += n;
        if (m >= one << 4) {
            m = (m >> 1) | (m & 1);
            exponent++;
        }
    }
    if (exponent >= 0x7ff) {
        return (a & sign_bit) | infinite;
    }
    sum = m >> 3;
    if (sum >= one) {
        sum += ((uint64_t)exponent - 1) << 52;
    }
    if ((m & 7) > 4 || ((m & 7) == 4 && (sum & 1))) {
        sum++;
    }
    return (a & sign_bit) | sum;
}
/* a + b, or a - b where flipped is the sign's bit. */
static double dm_soft_sum(double a, double b, uint64_t flipped)
{
    uint64_t x, y;
    memcpy(&x, &a, sizeof x);
    memcpy(&y, &b, sizeof y);
    x = dm_sum_of_bits(x, y ^ flipped);
    memcpy(&a, &x, sizeof a);
    return a;
}
static inline double dm_double_add(double a, double b)
{
    return dm_soft_sum(a, b, 0);
}
static inline double dm_double_sub(double a, double b)
{
    return dm_soft_sum(a, b, (uint64_t)1 << 63);
}
#else
static inline double dm_double_add(double a, double b)
{
    volatile double sum = a + b;
    return sum;
}
static inline double dm_double_sub(double a, double b)
{
    volatile double difference = a - b;
    return difference;
}
#endif

static inline double dm_double_mul(double a, double b)
{
    volatile double product = a * b;
    return product;
}

static inline double dm_double_div(double a, double b)
{
    volatile double divisor = b, quotient = a / divisor;
    return quotient;
}

static inline float dm_float_add(float a, float b)
{
    volatile float sum = a + b;
    return sum;
}

static inline float dm_float_sub(float a, float b)
{
    volatile float difference = a - b;
    return difference;
}

static inline float dm_float_mul(float a, float b)
{
    volatile float product = a * b;
    return product;
}

static inline float dm_float_div(float a, float b)
{
    volatile float divisor = b, quotient = a / divisor;
    return quotient;
}
