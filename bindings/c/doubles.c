/* Doubles and the row on screen in the test in C, which calls.c runs: known answers, the same under every float setting of the
 * processor; every number of an operation; doubles drawn at random beside the processor's own; and every part of small rows. */
#include "dampmeadow.h"
#include "hold.h"
#include <inttypes.h>
#include <stdio.h>
#ifdef __SSE__
#include <xmmintrin.h>
#endif

#define SIGN 0x8000000000000000u
#define NOT_A_NUMBER 0x7ff8000000000000u

/* What a place holds before a call; no answer here is this. */
#define BEFORE 0x5555555555555555u

static const uint32_t kernels[4] = {DAMPMEADOW_TRUNC, DAMPMEADOW_FRACT, DAMPMEADOW_SQRT, DAMPMEADOW_INV};

/* A call into a place between two others that have to stay: the refusal, and then the word. */
static void call(uint32_t op, uint64_t a, uint32_t refusal, uint64_t word)
{
    char what[50] = "";
    uint64_t places[3] = {BEFORE, BEFORE, BEFORE};
    const uint32_t got = dampmeadow_double(op, a, &places[1]);
    if (got != refusal || places[1] != word) snprintf(what, sizeof what, "double %02" PRIx32 " %016" PRIx64, op, a);
    hold(what, got, refusal);
    hold(what, places[1], word);
    hold("the places about a double", places[0] == BEFORE && places[2] == BEFORE, 1);
}

/* Words, each with what raw trunc, fract, sqrt and inv give, and with the refusals of the guarded four. */
static const struct {
    uint64_t a, raw[4];
    uint32_t refusals[4];
} known[] = {
    /* zeros, and too small to be normal */
    {0x0000000000000000, {0, 0, 0x1ff8000000000000, 0x7fe0000000000000}, {0, 0, 0, 2}},
    {0x8000000000000000, {SIGN, SIGN, 0x5ff8000000000000, 0xffe0000000000000}, {0, 0, 0, 2}},
    {0x0000000000000001, {0, 0x0000000000000001, 0x1ff8000000000000, 0x7fdfffffffffffff}, {0, 0, 9, 9}},
    {0x8000000000000001, {SIGN, 0x8000000000000001, NOT_A_NUMBER, 0xffdfffffffffffff}, {0, 0, 9, 9}},
    {0x000fffffffffffff, {0, 0x000fffffffffffff, 0x1fffffffffffffff, 0x7fd0000000000001}, {0, 0, 9, 9}},
    {0x800fffffffffffff, {SIGN, 0x800fffffffffffff, NOT_A_NUMBER, 0xffd0000000000001}, {0, 0, 9, 9}},
    /* 2^-1022 */
    {0x0010000000000000, {0, 0x0010000000000000, 0x2000000000000000, 0x7fd0000000000000}, {0, 0, 0, 0}},
    {0x8010000000000000, {SIGN, 0x8010000000000000, NOT_A_NUMBER, 0xffd0000000000000}, {0, 0, 3, 0}},
    /* about 1 */
    {0x3fefffffffffffff, {0, 0x3fefffffffffffff, 0x3fefffffffffffff, 0x3ff0000000000001}, {0, 0, 0, 0}},
    {0xbfefffffffffffff, {SIGN, 0xbfefffffffffffff, NOT_A_NUMBER, 0xbff0000000000001}, {0, 0, 3, 0}},
    {0x3ff0000000000000, {0x3ff0000000000000, 0, 0x3ff0000000000000, 0x3ff0000000000000}, {0, 0, 0, 0}},
    {0xbff0000000000000, {0xbff0000000000000, SIGN, NOT_A_NUMBER, 0xbff0000000000000}, {0, 0, 3, 0}},
    {0x3ff0000000000001, {0x3ff0000000000000, 0x3cb0000000000000, 0x3ff0000000000000, 0x3fefffffffffffff}, {0, 0, 0, 0}},
    {0xbff0000000000001, {0xbff0000000000000, 0xbcb0000000000000, NOT_A_NUMBER, 0xbfefffffffffffff}, {0, 0, 3, 0}},
    /* 1.5, 2, -2.5 and 4 */
    {0x3ff8000000000000, {0x3ff0000000000000, 0x3fe0000000000000, 0x3ff4000000000000, 0x3fe8000000000000}, {0, 0, 0, 0}},
    {0x4000000000000000, {0x4000000000000000, 0, 0x3ff8000000000000, 0x3fe0000000000000}, {0, 0, 0, 0}},
    {0xc004000000000000, {0xc000000000000000, 0xbfe0000000000000, NOT_A_NUMBER, 0xbfdc000000000000}, {0, 0, 3, 0}},
    {0x4010000000000000, {0x4010000000000000, 0, 0x4000000000000000, 0x3fd0000000000000}, {0, 0, 0, 0}},
    /* the last with a fraction, and 2^52 */
    {0x432fffffffffffff, {0x432ffffffffffffe, 0x3fe0000000000000, 0x418fffffffffffff, 0x3cb0000000000001}, {0, 0, 0, 0}},
    {0x4330000000000000, {0x4330000000000000, 0, 0x4190000000000000, 0x3cb0000000000000}, {0, 0, 0, 0}},
    /* the last below 2^64, 2^64, and past it, where the places are counted modulo 64 */
    {0x43efffffffffffff, {0x43efffffffffffff, 0, 0x41efffffffffffff, 0x3bf0000000000001}, {0, 0, 0, 0}},
    {0xc3efffffffffffff, {0xc3efffffffffffff, SIGN, NOT_A_NUMBER, 0xbbf0000000000001}, {0, 0, 3, 0}},
    {0x43f0000000000000, {0x43f0000000000000, 0, 0x41f0000000000000, 0x3bf0000000000000}, {4, 4, 0, 0}},
    {0xc3f0000000000000, {0xc3f0000000000000, SIGN, NOT_A_NUMBER, 0xbbf0000000000000}, {4, 4, 3, 0}},
    {0x43f8000000000000, {0x43f0000000000000, 0x3fe0000000000000, 0x41f4000000000000, 0x3be8000000000000}, {4, 4, 0, 0}},
    {0x4404000000000000, {0x4400000000000000, 0x3fe0000000000000, 0x41fa000000000000, 0x3bdc000000000000}, {4, 4, 0, 0}},
    /* 2^1022, the next, 2^1023, where the inverse is 0, the next, where it wraps, and the largest */
    {0x7fd0000000000000, {0x7fd0000000000000, 0, 0x5fe0000000000000, 0x0010000000000000}, {4, 4, 0, 0}},
    {0xffd0000000000000, {0xffd0000000000000, SIGN, NOT_A_NUMBER, 0x8010000000000000}, {4, 4, 3, 0}},
    {0x7fd0000000000001, {0x7fd0000000000001, 0, 0x5fe0000000000000, 0x000fffffffffffff}, {4, 4, 0, 4}},
    {0xffd0000000000001, {0xffd0000000000001, SIGN, NOT_A_NUMBER, 0x800fffffffffffff}, {4, 4, 3, 4}},
    {0x7fe0000000000000, {0x7fe0000000000000, 0, 0x5fe8000000000000, 0}, {4, 4, 0, 4}},
    {0x7fe0000000000001, {0x7fe0000000000001, 0, 0x5fe8000000000000, 0xffffffffffffffff}, {4, 4, 0, 4}},
    {0x7fefffffffffffff, {0x7fefffffffffffff, 0, 0x5fefffffffffffff, 0xfff0000000000001}, {4, 4, 0, 4}},
    {0xffefffffffffffff, {0xffefffffffffffff, SIGN, NOT_A_NUMBER, 0x7ff0000000000001}, {4, 4, 3, 4}},
    /* infinities and NaN */
    {0x7ff0000000000000, {0x7ff0000000000000, 0, 0x5ff0000000000000, 0xfff0000000000000}, {1, 1, 1, 1}},
    {0xfff0000000000000, {0xfff0000000000000, SIGN, NOT_A_NUMBER, 0x7ff0000000000000}, {1, 1, 1, 1}},
    {0x7ff0000000000001, {0x7ff0000000000000, 0x3cb0000000000000, NOT_A_NUMBER, 0xffefffffffffffff}, {1, 1, 1, 1}},
    {0x7ff8000000000000, {0x7ff0000000000000, 0x3fe0000000000000, NOT_A_NUMBER, 0xffe8000000000000}, {1, 1, 1, 1}},
    {0xfff8000000000001, {0xfff0000000000000, 0xbfe0000000000002, NOT_A_NUMBER, 0x7fe7ffffffffffff}, {1, 1, 1, 1}},
    {0xffffffffffffffff, {0xfff0000000000000, 0xbfeffffffffffffe, NOT_A_NUMBER, 0x7fe0000000000001}, {1, 1, 1, 1}},
};

static void rows(void)
{
    for (size_t i = 0; i < sizeof known / sizeof *known; i++) for (int k = 0; k < 4; k++) {
        const uint64_t a = known[i].a, word = known[i].raw[k];
        const uint32_t refusal = known[i].refusals[k];
        call(DAMPMEADOW_RAW + kernels[k], a, DAMPMEADOW_ANSWERED, word);
        /* the guarded root of a zero is that zero */
        const uint64_t guarded = kernels[k] == DAMPMEADOW_SQRT && (a & ~SIGN) == 0 ? a : word;
        call(kernels[k], a, refusal, refusal == DAMPMEADOW_ANSWERED ? guarded : 0);
    }
}

/* The same with each way of rounding that the processor has, small results and operands kept or taken for 0. It is known here
 * how to ask an x86-64 for that. */
static void settings(void)
{
#ifdef __SSE__
    const unsigned usual = _mm_getcsr(), rounding = 0x6000, small_results = 0x8000, small_operands = 0x0040;
    for (unsigned way = 0; way < 4; way++) for (unsigned small = 0; small < 4; small++) {
        _mm_setcsr((usual & ~rounding) | way << 13 | (small & 1 ? small_results : 0) | (small & 2 ? small_operands : 0));
        rows();
        _mm_setcsr(usual);
    }
#endif
}

static int is_kernel(uint32_t op)
{
    for (int k = 0; k < 4; k++) if (op == kernels[k] || op == DAMPMEADOW_RAW + kernels[k]) return 1;
    return 0;
}

/* No other number has a kernel on doubles, whatever the word. */
static void numbers(void)
{
    const uint64_t any[4] = {0, 0x3ff0000000000000, NOT_A_NUMBER, 0xffffffffffffffff};
    const uint32_t far[5] = {0x209, 0x10001, 0x80000001, 0x80000009, 0xffffffff};
    for (int i = 0; i < 4; i++) {
        for (uint32_t op = 0; op < 0x200; op++) if (!is_kernel(op)) call(op, any[i], DAMPMEADOW_NO_SUCH_OPERATION, 0);
        for (int j = 0; j < 5; j++) call(far[j], any[i], DAMPMEADOW_NO_SUCH_OPERATION, 0);
    }
}

/* The same words every time. */
static uint64_t drawn(void)
{
    static uint64_t state = 0x9e3779b97f4a7c15;
    state = state * 6364136223846793005 + 1442695040888963407;
    const uint64_t high = state >> 32 << 32;
    state = state * 6364136223846793005 + 1442695040888963407;
    return high | state >> 32;
}

/* A number under 2^63 in size, its whole part by a cast and its fraction by a difference, which is exact; each has its sign. */
static void parts(uint64_t a)
{
    const double x = dampmeadow_double_of(a), whole = (double)(int64_t)x, rest = x - whole;
    const uint64_t sign = a & SIGN;
    call(DAMPMEADOW_TRUNC, a, DAMPMEADOW_ANSWERED, dampmeadow_double_bits(whole) | sign);
    call(DAMPMEADOW_FRACT, a, DAMPMEADOW_ANSWERED, dampmeadow_double_bits(rest) | sign);
}

/* A positive number from 2^-1021 to 2^1021: the square of its root over it, and its inverse times it, each of them rounded. */
static void estimates(uint64_t a)
{
    const double x = dampmeadow_double_of(a), little = 1.0 / 1125899906842624; /* 2^-50 */
    uint64_t root, inverse, turned;
    hold("a root of a double", dampmeadow_double(DAMPMEADOW_SQRT, a, &root), DAMPMEADOW_ANSWERED);
    hold("an inverse of a double", dampmeadow_double(DAMPMEADOW_INV, a, &inverse), DAMPMEADOW_ANSWERED);
    hold("an inverse below 0", dampmeadow_double(DAMPMEADOW_INV, a | SIGN, &turned), DAMPMEADOW_ANSWERED);
    const double r = dampmeadow_double_of(root), square = r * (r / x), product = x * dampmeadow_double_of(inverse);
    hold("the square of a root", square >= 1 - little && square <= 1.125 + little, 1);
    hold("the product with an inverse", product >= 1 && product <= 1.125, 1);
    hold("an inverse and its sign", turned, inverse | SIGN);
}

static void at_random(void)
{
    for (int i = 0; i < 60000; i++) {
        const uint64_t any = drawn(), fraction = drawn() & 0x000fffffffffffff;
        parts((any & SIGN) | (1020 + any % 66) << 52 | fraction); /* from 2^-3 up to 2^63 */
        estimates((2 + any % 2042) << 52 | fraction);
    }
}

void doubles(void)
{
    rows();
    settings();
    numbers();
    at_random();
    /* the word of 2^n has n + 1023 in its field */
    for (int k = -511; k <= 511; k++) call(DAMPMEADOW_SQRT, (uint64_t)(2 * k + 1023) << 52, 0, (uint64_t)(k + 1023) << 52);
    hold("the word of a double", dampmeadow_double_bits(-2.5), 0xc004000000000000);
    hold("the double of a word", dampmeadow_double_of(0xc004000000000000) == -2.5, 1);
}

/* The columns of two rows of these lengths: which row is told and which columns of it, then where in that row's memory the part
 * begins, and what stands in it. `chosen` is whether the retouched row is asked for. */
static void part(size_t scan, size_t retouch, bool chosen, size_t from, size_t to)
{
    static const uint16_t scanned[5] = {10, 11, 12, 13, 14}, retouched[5] = {20, 21, 22, 23, 24};
    const char *what = chosen ? "columns of the retouched row" : "columns of the scanned row";
    const bool given = from <= to && to <= (chosen ? retouch : scan);
    size_t first[3] = {99, 99, 99}, last[3] = {99, 99, 99};
    const bool told = dampmeadow_columns(scan, retouch, chosen, from, to, &first[1], &last[1]);
    hold(what, told, given && chosen);
    hold(what, first[1], given ? from : 0);
    hold(what, last[1], given ? to : 0);
    hold("the places about columns", first[0] == 99 && first[2] == 99 && last[0] == 99 && last[2] == 99, 1);
    if (first[1] > last[1] || last[1] > 5) return; /* wrong, and said to be: there is no such part */
    const uint16_t *row = told ? retouched : scanned, *begin = row + first[1], *end = row + last[1];
    hold(what, begin == (given ? (chosen ? retouched : scanned) + from : scanned), 1);
    for (size_t column = from; begin < end; begin++, column++) hold(what, *begin, (chosen ? 20 : 10) + column);
}

/* The same of lengths alone, with what is due. */
static void span(const char *what, size_t scan, size_t retouch, bool chosen, size_t from, size_t to, bool told,
                 size_t first_due, size_t last_due)
{
    size_t first = 99, last = 99;
    hold(what, dampmeadow_columns(scan, retouch, chosen, from, to, &first, &last), told);
    hold(what, first, first_due);
    hold(what, last, last_due);
}

void columns(void)
{
    const size_t most = (size_t)-1;
    span("columns 2 to 5 of the retouched row", 6, 6, true, 2, 5, true, 2, 5);
    span("columns 2 to 5 of the scanned row", 6, 6, false, 2, 5, false, 2, 5);
    span("columns past the end", 6, 4, true, 2, 5, false, 0, 0);
    span("columns out of order", 6, 6, true, 5, 2, false, 0, 0);
    for (size_t lengths = 0; lengths < 36; lengths++) for (int chosen = 0; chosen < 2; chosen++)
        for (size_t from = 0; from < 10; from++) for (size_t to = 0; to < 10; to++)
            part(lengths / 6, lengths % 6, chosen != 0, from < 8 ? from : most + from - 9, to < 8 ? to : most + to - 9);
    /* rows as long as can be told; no memory has such */
    span("the last column of all", most, 0, false, most - 1, most, false, most - 1, most);
    span("the end of all columns", 0, most, true, most, most, true, most, most);
    span("one past the longest row but one", most, most - 1, true, most, most, false, 0, 0);
}
