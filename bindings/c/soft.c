/* The second engine in the test in C, which calls.c runs: known answers, the same under every float setting of the processor;
 * the four operations beside the processor's own, over edges and over pairs drawn at random; and the four kernels beside the
 * library's raw ones. */
#include "dampmeadow_soft.h" /* the first, so that it has to stand by itself */
#include "dampmeadow.h"
#include "hold.h"
#include <inttypes.h>
#include <stdio.h>
#ifdef __SSE__
#include <xmmintrin.h>
#endif

#define SIGN 0x80000000u

/* The operations and the kernels, by a letter each. */
static const char operations[4] = {'+', '-', '*', '/'}, kernels[4] = {'c', 's', 'n', 'a'};

/* What the second engine gives. A kernel takes the first word alone. */
static uint32_t soft(char letter, uint32_t a, uint32_t b)
{
    switch (letter) {
    case '+': return dampmeadow_soft_add(a, b);
    case '-': return dampmeadow_soft_sub(a, b);
    case '*': return dampmeadow_soft_mul(a, b);
    case '/': return dampmeadow_soft_div(a, b);
    case 'c': return dampmeadow_soft_cos(a);
    case 's': return dampmeadow_soft_sin(a);
    case 'n': return dampmeadow_soft_atan_norm(a);
    default: return dampmeadow_soft_atan(a);
    }
}

/* What the processor gives, with one word for every NaN. The operands are volatile, so that it is asked each time. */
static uint32_t operated(char letter, uint32_t a, uint32_t b)
{
    const volatile float x = dampmeadow_float(a), y = dampmeadow_float(b);
    const volatile float value = letter == '+' ? x + y : letter == '-' ? x - y : letter == '*' ? x * y : x / y;
    const uint32_t word = dampmeadow_bits(value);
    return (word & ~SIGN) > 0x7f800000 ? 0x7fc00000 : word;
}

/* What the library's raw kernel gives; it refuses nothing. */
static uint64_t kernel(char letter, uint32_t a)
{
    if (letter == 'n') return dampmeadow_atan_norm(a);
    const uint32_t op = letter == 'c' ? DAMPMEADOW_COS : letter == 's' ? DAMPMEADOW_SIN : DAMPMEADOW_ATAN;
    return dampmeadow_words(DAMPMEADOW_RAW + op, a, 0);
}

static void row(char letter, uint32_t a, uint32_t b, uint64_t due)
{
    char what[40] = "";
    const uint32_t answer = soft(letter, a, b);
    if (answer != due) snprintf(what, sizeof what, "soft %08" PRIx32 " %c %08" PRIx32, a, letter, b);
    hold(what, answer, due);
}

static void pair(uint32_t a, uint32_t b)
{
    for (int i = 0; i < 4; i++) row(operations[i], a, b, operated(operations[i], a, b));
}

static void single(uint32_t a)
{
    for (int i = 0; i < 4; i++) row(kernels[i], a, 0, kernel(kernels[i], a));
}

/* Answers that are known, as words: no float is in the judging of them. */
static const struct {
    uint32_t a;
    char letter;
    uint32_t b, due;
} known[] = {
    /* exact, and rounded: a tie goes to the even word, and what is a little above or below it to the nearer one */
    {0x3f800000, '+', 0x40000000, 0x40400000},
    {0x3f800000, '+', 0x33800000, 0x3f800000},
    {0x3f800001, '+', 0x33800000, 0x3f800002},
    {0x3f800000, '+', 0x33800001, 0x3f800001},
    {0xbf800001, '+', 0xb3800000, 0xbf800002},
    {0x4b800000, '+', 0x3f800000, 0x4b800000},
    {0x4b800001, '+', 0x3f800000, 0x4b800002},
    {0x3f800000, '+', 0x00000001, 0x3f800000},
    {0x3f800000, '-', 0x40000000, 0xbf800000},
    {0x40000000, '-', 0x3f800000, 0x3f800000},
    {0x3f800000, '-', 0x33000000, 0x3f800000},
    {0x3f800000, '-', 0x33000001, 0x3f7fffff},
    {0x3f800001, '-', 0x3f800000, 0x34000000},
    {0x40000000, '*', 0xc0400000, 0xc0c00000},
    {0x3f800001, '*', 0x3fc00000, 0x3fc00002},
    {0x3f800003, '*', 0x3fc00000, 0x3fc00004},
    {0x3f800001, '*', 0x3f800001, 0x3f800002},
    {0x3f800000, '/', 0x40400000, 0x3eaaaaab},
    {0x40400000, '/', 0x3f800000, 0x40400000},
    {0x3f800000, '/', 0x3fffffff, 0x3f000001},
    {0x3faaaaaa, '/', 0xbfaaaaab, 0xbf7fffff},
    /* too large */
    {0x7f7fffff, '+', 0x73000000, 0x7f800000},
    {0x7f7fffff, '+', 0x72ffffff, 0x7f7fffff},
    {0xff7fffff, '-', 0x73000000, 0xff800000},
    {0x7f7fffff, '*', 0x7f7fffff, 0x7f800000},
    {0x5f800000, '*', 0xdf800000, 0xff800000},
    {0x5f7fffff, '*', 0x5f800000, 0x7f7fffff},
    {0x7f7fffff, '/', 0x3f7fffff, 0x7f800000},
    {0x7f7ffffe, '/', 0x3f7fffff, 0x7f7fffff},
    /* too small to be normal: as a result, and as an operand */
    {0x00800000, '-', 0x00000001, 0x007fffff},
    {0x007fffff, '+', 0x00000001, 0x00800000},
    {0x00000001, '+', 0x00000001, 0x00000002},
    {0x00000001, '*', 0x3f000000, 0x00000000},
    {0x80000001, '*', 0x3f000000, 0x80000000},
    {0x00000003, '*', 0x3f000000, 0x00000002},
    {0x20000000, '*', 0x1f800000, 0x00400000},
    {0x00800000, '*', 0x3f7fffff, 0x00800000},
    {0x1ac00003, '*', 0x19fffffc, 0x00000001},
    {0x80000001, '*', 0x00000001, 0x80000000},
    {0x00000001, '*', 0x7f7fffff, 0x34ffffff},
    {0x00000001, '/', 0x40000000, 0x00000000},
    {0x00000001, '/', 0x3fffffff, 0x00000001},
    {0x00000003, '/', 0x40000000, 0x00000002},
    {0x00000005, '/', 0x3fffffff, 0x00000003},
    {0x00000001, '/', 0x3f000001, 0x00000002},
    {0x00ffffff, '/', 0x40000000, 0x00800000},
    {0x00000001, '/', 0x7f7fffff, 0x00000000},
    {0x00000001, '/', 0x00ffffff, 0x33800001},
    {0x00000005, '/', 0x007fffff, 0x35200001},
    {0x00800000, '/', 0x80000001, 0xcb000000},
    /* zeros and their signs */
    {0x80000000, '+', 0x80000000, 0x80000000},
    {0x00000000, '+', 0x80000000, 0x00000000},
    {0x80000000, '+', 0x00000001, 0x00000001},
    {0xbf800000, '+', 0x3f800000, 0x00000000},
    {0x40200000, '-', 0x40200000, 0x00000000},
    {0xc0200000, '-', 0xc0200000, 0x00000000},
    {0x80000001, '-', 0x80000001, 0x00000000},
    {0x80000000, '-', 0x80000000, 0x00000000},
    {0x80000000, '-', 0x00000000, 0x80000000},
    {0x00000000, '-', 0x00000000, 0x00000000},
    {0x00000000, '*', 0xbf800000, 0x80000000},
    {0x80000000, '*', 0x80000000, 0x00000000},
    {0x00000000, '/', 0xbf800000, 0x80000000},
    {0x3f800000, '/', 0x80000000, 0xff800000},
    {0x80000001, '/', 0x80000000, 0x7f800000},
    {0x00000000, '/', 0x00000000, 0x7fc00000},
    {0x80000000, '/', 0x00000000, 0x7fc00000},
    /* infinities */
    {0x7f800000, '+', 0x7f800000, 0x7f800000},
    {0x7f800000, '+', 0xff800000, 0x7fc00000},
    {0xff800000, '+', 0x7f7fffff, 0xff800000},
    {0x7f800000, '-', 0x7f800000, 0x7fc00000},
    {0x3f800000, '-', 0x7f800000, 0xff800000},
    {0x7f800000, '*', 0xff800000, 0xff800000},
    {0x00000000, '*', 0x7f800000, 0x7fc00000},
    {0xff800000, '*', 0x00000000, 0x7fc00000},
    {0xff800000, '*', 0x00000001, 0xff800000},
    {0x7f800000, '/', 0xff800000, 0x7fc00000},
    {0x7f800000, '/', 0x80000000, 0xff800000},
    {0xff7fffff, '/', 0x7f800000, 0x80000000},
    /* NaN, in either place */
    {0x7f800001, '+', 0x3f800000, 0x7fc00000},
    {0x7f800000, '-', 0xffc00000, 0x7fc00000},
    {0xffffffff, '*', 0x00000000, 0x7fc00000},
    {0x3f800000, '/', 0xff800001, 0x7fc00000},
    /* kernels, of which the second word is nothing */
    {0x00000000, 'c', 0, 0x3f800000},
    {0x3f800000, 'c', 0, 0x3f0a5d25},
    {0x44800000, 'c', 0, 0x3f7cc870},
    {0x7fc00000, 'c', 0, 0x7fc00000},
    {0xffc00001, 'c', 0, 0x7fc00000},
    {0x3f800000, 's', 0, 0x3f57984f},
    {0x7fc00000, 's', 0, 0x7fc00000},
    {0x3f800000, 'n', 0, 0x3f000000},
    {0xbf800000, 'n', 0, 0xbf000000},
    {0x80000000, 'n', 0, 0x80000000},
    {0x7f800000, 'n', 0, 0x7fc00000},
    {0x3f000000, 'a', 0, 0x3eeec47c},
    {0x7f800000, 'a', 0, 0x7fc00000},
};

static void rows(void)
{
    for (size_t i = 0; i < sizeof known / sizeof *known; i++) row(known[i].letter, known[i].a, known[i].b, known[i].due);
}

/* The same with each way of rounding that the processor has, small results and operands kept or taken for 0. It is known here
 * how to ask an x86-64 for that. */
static void settings(void)
{
#ifdef __SSE__
    const unsigned usual = _mm_getcsr(), rounding = 0x6000, small_results = 0x8000, small_operands = 0x0040;
    for (unsigned way = 0; way < 4; way++) for (unsigned small = 0; small < 2; small++) {
        _mm_setcsr((usual & ~rounding) | way << 13 | (small ? small_results | small_operands : 0));
        rows();
        _mm_setcsr(usual);
    }
#endif
}

/* Each of them is taken with either sign. */
static const uint32_t edges[] = {
    0x00000000, 0x00000001, 0x00000002, 0x00000003, 0x00400000, 0x007fffff, 0x00800000, 0x00800001, 0x00ffffff, 0x01000000,
    0x1f800000, 0x20000000, 0x33000000, 0x33800000, 0x33800001, 0x34000000, 0x3f000000, 0x3f000001, 0x3f7fffff, 0x3f800000,
    0x3f800001, 0x3f800002, 0x3fc00000, 0x3fffffff, 0x40000000, 0x40400000, 0x4b800000, 0x4b800001, 0x5f7fffff, 0x5f800000,
    0x72ffffff, 0x73000000, 0x7f000000, 0x7f7ffffe, 0x7f7fffff, 0x7f800000, 0x7f800001, 0x7fbfffff, 0x7fc00000, 0x7fffffff,
};

static void at_edges(void)
{
    const size_t number = sizeof edges / sizeof *edges;
    for (size_t i = 0; i < 2 * number; i++) {
        const uint32_t a = edges[i / 2] | (i % 2 ? SIGN : 0);
        single(a);
        for (size_t j = 0; j < 2 * number; j++) pair(a, edges[j / 2] | (j % 2 ? SIGN : 0));
    }
}

/* The same words every time. */
static uint32_t drawn(void)
{
    static uint64_t state = 0x9e3779b97f4a7c15;
    state = state * 6364136223846793005 + 1442695040888963407;
    return (uint32_t)(state >> 32);
}

/* A word with this exponent. Half of them end in zeros, so that sums and products come to ties. */
static uint32_t with_exponent(int exponent)
{
    const uint32_t within = exponent < 0 ? 0 : exponent > 254 ? 254 : (uint32_t)exponent;
    const uint32_t sign = drawn() & SIGN, zeros = drawn() % 46;
    const uint32_t fraction = drawn() & 0x7fffff & (zeros < 23 ? ~(uint32_t)0 << zeros : ~(uint32_t)0);
    return sign | within << 23 | fraction;
}

/* Pairs by their exponents: the second's is so many times the first's, and a number from one end to the other more. */
static const struct {
    int times, from, to;
} kinds[] = {
    {1, -27, 27},    /* sums that round and that cancel */
    {-1, 103, 135},  /* products about 2^-126 */
    {1, 119, 151},   /* quotients about 2^-126 */
    {-1, 378, 384},  /* products about 2^128 */
    {1, -130, -124}, /* quotients about 2^128 */
};

static void at_random(void)
{
    const size_t number = sizeof kinds / sizeof *kinds;
    for (int i = 0; i < 60000; i++) {
        const uint32_t any = drawn();
        pair(any, drawn());
        single(any);
        for (size_t kind = 0; kind < number; kind++) {
            const int exponent = (int)(drawn() % 255), spread = kinds[kind].to - kinds[kind].from + 1;
            const int more = kinds[kind].from + (int)(drawn() % (uint32_t)spread);
            const uint32_t a = with_exponent(exponent);
            pair(a, with_exponent(kinds[kind].times * exponent + more));
        }
        single(with_exponent(100 + (int)(drawn() % 64)));
    }
}

void second_engine(void)
{
    rows();
    settings();
    at_edges();
    at_random();
}
