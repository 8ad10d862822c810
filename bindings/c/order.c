/* Order, oddness and ends, as dampmeadow.h tells them, in the test in C that calls.c runs. */
#include "dampmeadow.h"
#include "hold.h"

#define SIGN 0x80000000u

static uint32_t raw(uint32_t op, uint32_t a)
{
    return dampmeadow_word_of(dampmeadow_words(DAMPMEADOW_RAW + op, a, 0));
}

/* A raw kernel's answers to a word and to a higher one: as words and as floats they are in order. */
static void pair(const char *what, uint32_t op, uint32_t a, uint32_t b, int rises)
{
    const uint32_t lower = raw(op, rises ? a : b), upper = raw(op, rises ? b : a);
    hold(what, lower <= upper && dampmeadow_float(lower) <= dampmeadow_float(upper), 1);
}

/* The same of words up to `last`, each beside the one next to it and the next that is tried. */
static void ordered(const char *what, uint32_t op, uint32_t last, int rises)
{
    for (uint32_t a = 0; a < last;) {
        const uint32_t b = last - a > 65521 ? a + 65521 : last;
        pair(what, op, a, a + 1, rises);
        pair(what, op, a, b, rises);
        a = b;
    }
}

/* Answers to words of either sign and a size of no more than `last`: from -`end` to `end`, and, if they are odd, with their sign
 * turned for a word with its sign turned. `end` is a word without a sign. */
static void within(const char *what, uint32_t (*kernel)(uint32_t), uint32_t last, uint32_t end, int odd)
{
    for (uint32_t a = 0;;) {
        const uint32_t plus = kernel(a), minus = kernel(a ^ SIGN);
        hold(what, (plus & ~SIGN) <= end && (minus & ~SIGN) <= end, 1);
        if (odd) hold(what, minus, plus ^ SIGN);
        if (a == last) break;
        a = last - a > 65521 ? a + 65521 : last;
    }
}

static uint32_t raw_atan(uint32_t a) { return raw(DAMPMEADOW_ATAN, a); }
static uint32_t raw_cos(uint32_t a) { return raw(DAMPMEADOW_COS, a); }
static uint32_t raw_sin(uint32_t a) { return raw(DAMPMEADOW_SIN, a); }

void order(void)
{
    ordered("raw sqrt never falls", DAMPMEADOW_SQRT, 0x7f800000, 1);
    ordered("raw invsqrt never rises", DAMPMEADOW_INVSQRT, 0x7f800000, 0);
    ordered("raw inv never rises", DAMPMEADOW_INV, 0x7f000000, 0);
    hold("raw inv wraps past 2^127", raw(DAMPMEADOW_INV, 0x7f000001), 0xffffffff);
    /* the word of 2^n has n + 127 in its field */
    for (int k = -63; k <= 63; k++)
        hold("sqrt of 2^(2k)", dampmeadow_words(DAMPMEADOW_SQRT, (uint32_t)(2 * k + 127) << 23, 0), (uint32_t)(k + 127) << 23);
    within("raw atan_norm", dampmeadow_atan_norm, 0x5f7fffff, 0x3f800000, 1);
    within("raw atan", raw_atan, 0x5f7fffff, 0x3fc90fdb, 1);
    within("raw cos", raw_cos, 0x4bc90fdb, 0x3f800000, 0);
    within("raw sin", raw_sin, 0x4bc90fda, 0x3f800000, 0);
    within("atan_norm without floats", dampmeadow_soft_atan_norm, 0x5f7fffff, 0x3f800000, 1);
    within("atan without floats", dampmeadow_soft_atan, 0x5f7fffff, 0x3fc90fdb, 1);
    within("cos without floats", dampmeadow_soft_cos, 0x4bc90fdb, 0x3f800000, 0);
    within("sin without floats", dampmeadow_soft_sin, 0x4bc90fda, 0x3f800000, 0);
    /* the ends are reached, and the next words are past them */
    hold("atan_norm of 5f7fffff", dampmeadow_atan_norm_guarded(0x5f7fffff), 0x3f800000);
    hold("atan_norm of df7fffff", dampmeadow_atan_norm_guarded(0xdf7fffff), 0xbf800000);
    hold("raw atan_norm of 2^64", dampmeadow_atan_norm(0x5f800000), 0x7fc00000);
    hold("raw atan_norm of -2^64", dampmeadow_atan_norm(0xdf800000), 0x7fc00000);
    hold("atan of 5f7fffff", dampmeadow_words(DAMPMEADOW_ATAN, 0x5f7fffff, 0), 0x3fc90fdb);
    hold("atan of -0", dampmeadow_words(DAMPMEADOW_ATAN, SIGN, 0), SIGN);
    hold("cos of pi", dampmeadow_words(DAMPMEADOW_COS, 0x40490fdb, 0), 0xbf800000);
    hold("sin of pi/2", dampmeadow_words(DAMPMEADOW_SIN, 0x3fc90fdb, 0), 0x3f800000);
    hold("raw cos past 2^22 turns", raw_cos(0xcbc90fdc), 0xc08b3333);
    hold("raw sin past 2^22 turns", raw_sin(0xcbc90fdb), 0xc08b3333);
}
