/* Dampmeadow: float kernels that give a number or say why not. For C (from C99) and C++.
 *
 * Link it with the library: target/staticlib/libdampmeadow.a, which `./library` builds for x86-64 Linux. Its
 * objects are in Linux's format, ELF, which the linkers of other systems do not take.
 *
 *   cc -I include program.c target/staticlib/libdampmeadow.a
 *
 * The library needs nothing from outside, neither a C library nor its mathematics.
 *
 * It keeps nothing between calls, so any number of threads may call it at once, each with memory of its own to be written: two
 * threads must not offer to one record of grain at once. It counts on the processor's usual float settings, in all calls but
 * dampmeadow_columns and those of dampmeadow_soft.h: rounding to nearest, and numbers too small to be normal kept as they are.
 * (A program linked with -ffast-math may start with other settings, and then the answers are not ours: docs/GUIDE.md has what
 * changes.)
 *
 * A float goes in and comes out as its 32 bits, its "word": 4.0f is 0x40800000. dampmeadow_bits and dampmeadow_float, below,
 * go from one to the other. Words, and not floats, because a NaN's bits may change when it is handed on as a float. Only the
 * mean and the sum in a record of grain are floats. A double is its 64 bits in the same way, in dampmeadow_double alone.
 */
#ifndef DAMPMEADOW_H
#define DAMPMEADOW_H

#if !defined(__cplusplus) && (!defined(__STDC_VERSION__) || __STDC_VERSION__ < 199901L)
#error "dampmeadow.h needs C99 or later: compile with -std=c99"
#endif

#include "dampmeadow_soft.h"
#ifndef __cplusplus
#include <stdbool.h>
#endif
#include <stddef.h>
#include <stdint.h>
#include <string.h>

#ifdef __cplusplus
extern "C" {
#endif

/* ---- The operations
 *
 * Each kernel has a number for its guarded form. The guarded form takes what is written beside it, finite numbers only, and
 * refuses the rest; it never answers with a NaN. (A formula of kernels may come to one: see dampmeadow_recipe.) "Above 0" and
 * "not 0" leave out the numbers that are too small to be normal too: those of a size under 2^-126. The example is a guarded
 * call and its answer. All this is of floats: what trunc, fract, sqrt and inv take as kernels on doubles, and give, is told at
 * dampmeadow_double.
 *
 * From sqrt to tan they are estimates, as they are in micromath: quick rather than close. sqrt may be some 6 percent too large
 * and inv, in size, 12.5; hypot of 3 and 4 is 5.125 here, and sqrt of 2 is 1.5. As x grows sqrt never falls, and above 0
 * invsqrt and inv never rise; of 2^(2k) sqrt is 2^k, exactly. inv, atan and atan_norm of -x are those of x with the other sign.
 * atan_norm, cos and sin are from -1 to 1, and atan from 0xbfc90fdb to 0x3fc90fdb, the floats of -pi/2 and pi/2; each reaches
 * its ends. ln of a number below 1 is up to 0.118 off, and powf with it: ln of 0.99 is -0.0198 here for -0.01005, and 0.75 to 2
 * is 0.444 for 0.5625. A power of powi that is too large is an infinity, and of an x under 0.5 in size it gives up early, with
 * 0 or an infinity: 0.4 to 75 is 0. asin is up to 0.018 off and acos 0.029: asin of 0.1 is 0.0940 here for 0.1002, and acos of
 * 0.75 is 0.743 for 0.723. cos and sin are 0.0012 off at most, and so is tan while it is 1 at most in size; it is further off
 * the steeper it gets: of 1.5 it is 14.24 for 14.10 and of 1.57 1273 for 1256, and at the steepest angles even its sign may be
 * wrong. Of an angle under 0.00000005 in size it is 0, without the sign.
 *
 * rem_euclid and div_euclid are no estimates. Of an x that is not below 0 rem_euclid is exact. Of one below 0 it is rounded
 * once, and may be |y| itself: -1e-45 by 1 leaves 1. -0 leaves -0, and so does an x below 0 that y divides. div_euclid counts
 * by the rounded quotient, and where that was rounded up to a whole number it is one too far from 0 for what rem_euclid leaves:
 * 1 by 0.1 is 10 and leaves 0.0999999866, since the float 0.1 is a little more than a tenth. On whole numbers of a size to 2^24
 * the two always agree.
 *
 * The ln(x) of powf's gate and the cos(x) of tan's are this library's own, and powf's product is rounded. That cos(x) is 0 at
 * 185 words, the float nearest to pi/2, 0x3fc90fdb, among them. x over 0 is no number under 2^23: a y of 0 is refused with 4.
 *
 * Of an angle that is larger than 256, take off the whole turns first: rem_euclid by 2 pi, 0x40c90fdb, leaves the rest.
 */
enum dampmeadow_operation {
    DAMPMEADOW_TRUNC = 0x01,      /* the whole part, toward 0           |x| under 2^32              -2.5 -> -2            */
    DAMPMEADOW_FRACT = 0x02,      /* what trunc leaves, with x's sign   |x| under 2^32              -2.5 -> -0.5          */
    DAMPMEADOW_FLOOR = 0x03,      /* the largest whole not above x      |x| to 2^31                 -0.5 -> -1            */
    DAMPMEADOW_CEIL = 0x04,       /* the smallest whole not below x     |x| to 2^31                 2.5 -> 3              */
    DAMPMEADOW_ROUND = 0x05,      /* the nearest, halves away from 0    |x| under 2^23, not the     2.5 -> 3              */
                                  /*                                    magnitude 0x3effffff                              */
    DAMPMEADOW_ABS = 0x06,        /* x without its sign                 every finite x              -2.5 -> 2.5           */
    DAMPMEADOW_COPYSIGN = 0x07,   /* x with the sign of the second      every finite x and second   2.5, -1 -> -2.5       */
    DAMPMEADOW_SIGNUM = 0x08,     /* 1 or -1 by x's sign bit, 0 too     every finite x              -2.5 -> -1            */
    DAMPMEADOW_SQRT = 0x09,       /* square root, of a zero that zero   0, -0, or x above 0         4 -> 2                */
    DAMPMEADOW_INVSQRT = 0x0a,    /* 1 over the square root             x above 0                   1 -> 0.966225028      */
    DAMPMEADOW_INV = 0x0b,        /* 1/x, the quickest                  x not 0, |x| to 2^126       1.5 -> 0.75           */
    DAMPMEADOW_RECIP = 0x0c,      /* 1/x, closer                        x not 0, |x| to 2^125       4 -> 0.250000119      */
    DAMPMEADOW_EXP = 0x0d,        /* e to the x                         x from -87 to 88            0.5 -> 1.6484375      */
    DAMPMEADOW_LN = 0x0e,         /* natural logarithm                  x above 0                   0.75 -> -0.405448198  */
    DAMPMEADOW_POWI = 0x0f,       /* x to a whole power                 x not 0, power from         3, power 3 -> 27      */
                                  /*                                    -1048576 to 1048576                               */
    DAMPMEADOW_POWF = 0x10,       /* x to the power n, a float          x above 0, n*ln(x) from     0.75, 2 -> 0.44445956 */
                                  /*                                    -87 to 88                                         */
    DAMPMEADOW_ATAN = 0x11,       /* arctangent, in radians             |x| under 2^64              0.5 -> 0.466342807    */
    DAMPMEADOW_ATAN2 = 0x12,      /* the angle of (x, y): y is first    the larger size from 2^-60  1, 2 -> 0.466342807   */
                                  /*                                    to 2^62                                           */
    DAMPMEADOW_COS = 0x13,        /* cosine of radians                  |x| to 256                  1 -> 0.540483773      */
    DAMPMEADOW_SIN = 0x14,        /* sine of radians                    |x| to 256                  1 -> 0.842167795      */
    DAMPMEADOW_HYPOT = 0x15,      /* length of (x, y)                   the larger size from 2^-60  3, 4 -> 5.125         */
                                  /*                                    to 2^62                                           */
    DAMPMEADOW_ASIN = 0x16,       /* arcsine, in radians                |x| under 1                 0.5 -> 0.536748469    */
    DAMPMEADOW_ACOS = 0x17,       /* arccosine, in radians              0, -0, or |x| from 2^-60    0.5 -> 1.04882419     */
                                  /*                                    and under 1                                       */
    DAMPMEADOW_TAN = 0x18,        /* tangent of radians                 |x| to 256, cos(x) not 0    1 -> 1.55817401       */
    DAMPMEADOW_REM_EUCLID = 0x19, /* what whole y leave of x, 0 to |y|  x/y under 2^23 in size      -7, 3 -> 2            */
    DAMPMEADOW_DIV_EUCLID = 0x1a  /* how many whole y those are         x/y under 2^23 in size      -7, 3 -> -3           */
};

/* Added to an operation, it asks for the raw form: DAMPMEADOW_RAW + DAMPMEADOW_SQRT. A raw form answers every word with the
 * bits that micromath gives, a NaN and an infinity among them: raw sqrt of 0 is 0x1fc00000, and of -0 0x5fc00000. Five cases
 * are settled here: a NaN is 0x7fc00000, but from abs, copysign, inv and invsqrt, whether micromath's arithmetic made it or its
 * exp put it together from bits; exp of a NaN; powi to -2^31, where micromath may not end; and div_euclid where the quotient is
 * a NaN, which gives 0x7f800000. docs/DIFFERENCES.md has them.
 */
#define DAMPMEADOW_RAW 0x80u

/* ---- The refusals
 *
 * Where more than one of them holds, the first in the column "looked at" is given. Raw forms are never refused with 1 to 5
 * or with 9. 8 is given by dampmeadow_answer alone, 10 by dampmeadow_strip alone, 11 and 12 by dampmeadow_grain_offer alone,
 * and 13 to 15 by dampmeadow_recipe alone. An offer gives 1 and 4 too, for the sample, and they are looked at in the order 12,
 * 1, 4, 11. A recipe has those of its kernels too, 1, 2, 9, 3 and 4, where none of 13, 14 and 15 holds. dampmeadow_double gives
 * 6, 1, 2, 9, 3 and 4, looked at in this order, which is the column's. Later versions have more of them: take every number but
 * 0 for a refusal.
 */
enum dampmeadow_refusal {                  /* looked at    given when                                                 */
    DAMPMEADOW_ANSWERED = 0,               /*              there is an answer                                         */
    DAMPMEADOW_NOT_FINITE = 1,             /* third        an operand or a sample is an infinity or a NaN             */
    DAMPMEADOW_ZERO = 2,                   /* fourth       the first operand is 0 or -0: invsqrt, inv, recip, ln,     */
                                           /*              powi, powf                                                 */
    DAMPMEADOW_NEGATIVE = 3,               /* sixth        the first operand is below 0: sqrt, invsqrt, ln, powf      */
    DAMPMEADOW_OUTSIDE = 4,                /* seventh      outside what the operation takes, as listed above; or a    */
                                           /*              sample's size is above 2^20                                */
    DAMPMEADOW_POWER_OUTSIDE = 5,          /* last         powi's power is below -1048576 or above 1048576            */
    DAMPMEADOW_NO_SUCH_OPERATION = 6,      /* second       no operation has this number, or none that takes a double  */
    DAMPMEADOW_MALFORMED = 7,              /* first        the line is no frame; or, after 6 and before 1, the second */
                                           /*              word is not used by this operation and is not 0            */
    DAMPMEADOW_NO_ROOM = 8,                /* before all   the space for the answer has fewer than 11 bytes           */
    DAMPMEADOW_SMALL = 9,                  /* fifth        the first operand is not 0 and too small to be normal:     */
                                           /*              sqrt, invsqrt, inv, recip, ln, powi, powf                  */
    DAMPMEADOW_LENGTHS = 10,               /* before 6     the lists of a strip have not all one length               */
    DAMPMEADOW_FULL = 11,                  /* after 4      the record of grain holds 65536 samples already            */
    DAMPMEADOW_WORN_OUT = 12,              /* before all   the record of grain has counted 4294967295 offers; nothing */
                                           /*              changes                                                    */
    DAMPMEADOW_TOO_LONG = 13,              /* before all   the recipe has more than 240 bytes                         */
    DAMPMEADOW_TOO_DEEP = 14,              /* after 13     the recipe's parentheses go more than 16 deep              */
    DAMPMEADOW_NOT_A_RECIPE = 15           /* after 14     the line is no recipe                                      */
};

/* ---- The marks
 *
 * Raw floor and ceil go through a cast to a 32-bit integer, and a mark says what that cast did to its number. It is given by
 * dampmeadow_floor_marked and dampmeadow_ceil_marked, beside the answer, and by no other call. A mark is no refusal: whichever
 * it is, there is an answer, and there are no marks but these five. With 0 and 1 the answer is the true floor or ceil, a zero
 * from floor +0 and from ceil -0. With 2 and 3 the cast stopped at an end of its range, and the answer is 2^31 or -2^31: right
 * where x is that number itself, and wrong for every other. With 4 it is a zero, +0 from floor and -0 from ceil.
 *
 * floor casts x. ceil casts -x and turns the sign of what comes of it, and its mark is that of the cast of -x. So of an x above
 * 2^31 floor's mark is "clipped high" and ceil's "clipped low", and of one below -2^31 it is the other way round. Of 2^31
 * itself floor's is "clipped high" and ceil's "exact", and of -2^31 floor's is "exact" and ceil's "clipped high".
 */
enum dampmeadow_mark {           /* the number that is cast                        the integer                     */
    DAMPMEADOW_EXACT = 0,        /* whole, from -2^31 and under 2^31; 0, -0 too    the number itself               */
    DAMPMEADOW_DROPPED = 1,      /* not whole, from -2^31 and under 2^31           the number without its fraction */
    DAMPMEADOW_CLIPPED_HIGH = 2, /* 2^31 or above, infinity too                    2^31 - 1                        */
    DAMPMEADOW_CLIPPED_LOW = 3,  /* below -2^31, -infinity too                     -2^31                           */
    DAMPMEADOW_NOT_A_NUMBER = 4  /* a NaN                                          0                               */
};

/* ---- The calls */

/* Calls an operation by its number.
 *
 * In:   op, an operation, with DAMPMEADOW_RAW added for its raw form; a, the first operand's word; b, the second's. b is 0
 *       where the operation has one operand. powi's b is its power as a whole number: (uint32_t)-3 for -3.
 * Back: the refusal in the high 32 bits and the answer's word in the low 32; with a refusal the word is 0. An answer of a
 *       guarded form is never a NaN; powi's may be an infinity. Every number and all words may be asked for.
 *
 *   dampmeadow_words(DAMPMEADOW_SQRT, 0x40800000, 0) == 0x40000000                      sqrt of 4 is 2
 *   dampmeadow_words(DAMPMEADOW_SQRT, 0xbf800000, 0) == 0x300000000                     sqrt of -1: refusal 3
 *   dampmeadow_words(DAMPMEADOW_SQRT, 0x80000000, 0) == 0x80000000                      sqrt of -0 is -0
 *   dampmeadow_words(DAMPMEADOW_RAW + DAMPMEADOW_SQRT, 0x80000000, 0) == 0x5fc00000     what micromath gives for -0
 */
uint64_t dampmeadow_words(uint32_t op, uint32_t a, uint32_t b);

/* Calls an operation for each place of a strip: lists of words in, a list of words and a list of refusals out.
 *
 * In:   op, an operation, with DAMPMEADOW_RAW added for its raw form.
 *       first and second, the operands' words. What the second list holds does not matter to an operation of one operand, but
 *       it is lent like the others: lend the first twice. powi's second list holds its powers: (uint32_t)-3 for -3. Floats are
 *       made words by dampmeadow_bits or memcpy, since neither C nor C++ lets a list of them be lent by a cast.
 *       answers and refusals, where the answers' words and the refusals are to be put. They share no memory with each other or
 *       with first and second: a strip cannot be run in place.
 *       After each list the number of its places, any number, 0 too. No pointer is NULL: for an empty list give the address
 *       of any word, since what an empty std::vector gives may be NULL.
 * Back: 0, and each place holds what dampmeadow_words gives for its first word and its second, or 0 for a second that is not
 *       used: in refusals the refusal, 0 where there is none, and in answers the word, 0 with a refusal. A returned 0 says
 *       nothing of the places; look at refusals. A refused place changes no other, and 7 is at none. A strip that is cut
 *       anywhere gives the same lists, piece by piece.
 *       Or the whole strip is refused, and nothing is written: with 10 where the lists have not all one number of places, and
 *       else with 6 where no operation has this number.
 *
 *   const uint32_t first[3] = {0x40800000, 0xbf800000, 0x00000000};
 *   uint32_t answers[3], refusals[3];
 *   dampmeadow_strip(DAMPMEADOW_SQRT, first, 3, first, 3, answers, 3, refusals, 3) == 0
 *                                       sqrt of 4, -1 and 0: answers is 0x40000000, 0, 0, and refusals is 0, 3, 0
 */
uint32_t dampmeadow_strip(uint32_t op, const uint32_t *first, size_t first_count, const uint32_t *second, size_t second_count,
                          uint32_t *answers, size_t answers_count, uint32_t *refusals, size_t refusals_count);

/* The arctangent as a share of a quarter turn, guarded. It has no operation number.
 *
 * In:   a, the operand's word; its size is under 2^64.
 * Back: as from dampmeadow_words; the refusals are 1 and 4.
 *
 *   dampmeadow_atan_norm_guarded(0x3f800000) == 0x3f000000       of 1 it is 0.5
 *   dampmeadow_atan_norm_guarded(0x7fc00000) == 0x100000000      a NaN: refusal 1
 */
uint64_t dampmeadow_atan_norm_guarded(uint32_t a);

/* The same, raw: any word in, the word that micromath gives back, and no refusal.
 *
 *   dampmeadow_atan_norm(0x3f800000) == 0x3f000000
 *   dampmeadow_atan_norm(0x7f800000) == 0x7fc00000               of infinity it is a NaN
 */
uint32_t dampmeadow_atan_norm(uint32_t a);

/* trunc and fract together, guarded: the whole part of x and what it leaves, both with x's sign. It has no operation number.
 *
 * In:   a, the operand's word; its size is under 2^32.
 *       whole and rest, where the two words are to be put: two places, and neither pointer is NULL.
 * Back: the refusal, 1 or 4, or 0 where there is none. With a refusal both words are 0.
 *
 *   uint32_t whole, rest;
 *   dampmeadow_parts(0xc0200000, &whole, &rest) == 0     of -2.5: whole is 0xc0000000, -2, and rest 0xbf000000, -0.5
 *   dampmeadow_parts(0x7fc00000, &whole, &rest) == 1     a NaN: whole and rest are 0
 */
uint32_t dampmeadow_parts(uint32_t a, uint32_t *whole, uint32_t *rest);

/* How much work a power took: how many products of two floats guarded powi formed for its answer.
 *
 * In:   a, the word of x; n, the power, here as a signed number: -3 for -3.
 * Back: the products. For each binary digit of n's size but the first there is one that squares, and for each digit that is 1
 *       one that goes into the result: 39 at most, for 1048575 and -1048575. The division that a negative power begins with is
 *       no product. 0 where dampmeadow_words refuses the call, for the power 0, and where powi answers early, with an infinity
 *       or 0, because x, not from 0.5 to below 2 in size, is by its exponent too large or too small for the power. Every word
 *       and every power may be asked for.
 *
 *   dampmeadow_powi_products(0x40400000, 3) == 3         3 to 3: 1 by 3, 3 by 3, and the 3 by the 9
 *   dampmeadow_powi_products(0x40400000, -3) == 3        as many to -3
 *   dampmeadow_powi_products(0x40400000, 0) == 0         no product: it is 1
 *   dampmeadow_powi_products(0x40400000, 128) == 0       answered early, with an infinity
 *   dampmeadow_powi_products(0x00000000, 3) == 0         refused with 2
 */
uint32_t dampmeadow_powi_products(uint32_t a, int32_t n);

/* Raw floor, and the mark of the cast that it makes, which is of x. It has no operation number.
 *
 * In:   a, the operand's word; any word.
 * Back: the mark in the high 32 bits and the answer's word in the low 32. The word is what dampmeadow_words gives for
 *       DAMPMEADOW_RAW + DAMPMEADOW_FLOOR. Nothing is refused: a mark other than 0 leaves the word as it is.
 *
 *   dampmeadow_floor_marked(0xc0400000) == 0xc0400000       of -3: exact, and -3
 *   dampmeadow_floor_marked(0xbf000000) == 0x1bf800000      of -0.5: fraction dropped, and -1
 *   dampmeadow_floor_marked(0x4f32d05e) == 0x24f000000      of 3e9: clipped high, and 2^31, which is too low
 *   dampmeadow_floor_marked(0x4f000000) == 0x24f000000      of 2^31: clipped high, and 2^31, which is right
 *   dampmeadow_floor_marked(0xcf32d05e) == 0x3cf000000      of -3e9: clipped low, and -2^31, which is too high
 *   dampmeadow_floor_marked(0x7fc00000) == 0x400000000      of a NaN: not a number, and 0
 */
uint64_t dampmeadow_floor_marked(uint32_t a);

/* Raw ceil, and the mark of the cast that it makes, which is of -x: "clipped high" is of an x that is low, and "clipped low" of
 * one that is high. It has no operation number.
 *
 * In:   a, the operand's word; any word.
 * Back: the mark in the high 32 bits and the answer's word in the low 32. The word is what dampmeadow_words gives for
 *       DAMPMEADOW_RAW + DAMPMEADOW_CEIL. Nothing is refused: a mark other than 0 leaves the word as it is.
 *
 *   dampmeadow_ceil_marked(0xc0400000) == 0xc0400000        of -3: exact, and -3
 *   dampmeadow_ceil_marked(0xbf000000) == 0x180000000       of -0.5: fraction dropped, and -0
 *   dampmeadow_ceil_marked(0x4f32d05e) == 0x34f000000       of 3e9: clipped low, and 2^31, which is too low
 *   dampmeadow_ceil_marked(0x4f000000) == 0x4f000000        of 2^31: exact, and 2^31
 *   dampmeadow_ceil_marked(0xcf000000) == 0x2cf000000       of -2^31: clipped high, and -2^31, which is right
 *   dampmeadow_ceil_marked(0x7fc00000) == 0x480000000       of a NaN: not a number, and -0
 */
uint64_t dampmeadow_ceil_marked(uint32_t a);

/* A record of grain: how many samples were taken, their running mean, and how far they lie about it. It is the caller's, and
 * each offer changes it in place. There is no call for a new one: a fresh record is all zeros, {0, 0, 0.0f, 0.0f}, and memset
 * to 0 makes one too.
 *
 * What is kept is the sum of the squared deviations and not the variance: divide sum by count, or by count - 1, where that is
 * not 0.
 *
 * Of a record that was fresh and is changed by offers alone it is proved that count is the number of samples taken and refused
 * the number refused, which add up to the offers, up to 4294967295 of them; that mean and sum are finite numbers, never a NaN
 * or an infinity, and sum is never below 0; and that where every sample taken is the same word, sum is +0 and mean is that
 * number, +0 for -0.
 */
struct dampmeadow_grain {
    uint32_t count;   /* how many samples were taken, 65536 at most */
    uint32_t refused; /* how many were refused with 1, 4 or 11      */
    float mean;       /* the mean of those taken                    */
    float sum;        /* the sum of their squared deviations        */
};

/* Offers a sample to a record of grain. It has no operation number.
 *
 * In:   grain, the record, which is not NULL. Any may be lent, one too that no offers give: a count of 70000 is full, and a NaN
 *       or an infinity in mean or sum goes through the steps as IEEE 754 has it. Which bits a NaN then has is not said.
 *       sample, the sample's word; its size is 2^20 at most. Numbers too small to be normal are taken at their value.
 * Back: 0 where the sample is taken. Then count is raised by one, to n; with d, which is sample - mean, mean gains d / n, and
 *       sum gains d * (sample - mean), by the new mean. Each step is rounded once, to a float.
 *       Or the refusal, the first of these that holds: 12 where count and refused add up to 4294967295 or more, 1 for an
 *       infinity or a NaN, 4 for a size above 2^20, and 11 where count is 65536 or more. With 12 nothing changes; with the
 *       others refused is raised by one and the rest stays.
 *
 *   struct dampmeadow_grain grain = {0, 0, 0.0f, 0.0f};
 *   dampmeadow_grain_offer(&grain, 0x40000000) == 0      2 is taken: count is 1, mean 2 and sum 0
 *   dampmeadow_grain_offer(&grain, 0x40800000) == 0      4 is taken: count is 2, mean 3 and sum 2
 *   dampmeadow_grain_offer(&grain, 0x7fc00000) == 1      a NaN: refused is 1, and the rest stays
 *   dampmeadow_grain_offer(&grain, 0x49800001) == 4      the first above 2^20: refused is 2, and the rest stays
 */
uint32_t dampmeadow_grain_offer(struct dampmeadow_grain *grain, uint32_t sample);

/* The bytes of an answer to a frame. */
#define DAMPMEADOW_ANSWER_LENGTH 11

/* Answers a frame, which is a line of text.
 *
 * In:   line and length, the line without its newline. A frame is 18 lower-case hexadecimal digits: the operation (2), the
 *       first word (8) and the second (8), 00000000 where it is not used. Any other line may be given, an empty one too, and
 *       is refused with 7.
 *       space and room, where the answer is to be put and how many bytes there are. The two do not overlap, and neither
 *       pointer is NULL.
 * Back: the refusal, 0 where there is none. The first 11 bytes of the space then hold the refusal in two digits, the
 *       answer's word in eight (00000000 with a refusal) and a newline; no NUL follows, and the rest of the space is left
 *       alone. With fewer than 11 bytes of room it is refused with 8 and nothing is written.
 *
 *   uint8_t space[DAMPMEADOW_ANSWER_LENGTH];
 *   dampmeadow_answer((const uint8_t *)"094080000000000000", 18, space, sizeof space) == 0     and space is 0040000000
 *   dampmeadow_answer((const uint8_t *)"09bf80000000000000", 18, space, sizeof space) == 3     and space is 0300000000
 */
uint32_t dampmeadow_answer(const uint8_t *line, size_t length, uint8_t *space, size_t room);

/* Works out a recipe, a formula on a line, at a number x. It has no operation number.
 *
 * In:   line and length, the line without its newline. Any line may be given, an empty one too, but the pointer is not NULL.
 *       x, the word that the letter x stands for; any word.
 *       A recipe has one term or more, with + or - between them; a term has one operand or more, with * or / between them. An
 *       operand is a number, as the eight lower-case hexadecimal digits of its word; or x; or a recipe within parentheses, with
 *       one of these names right before them or none: floor, sqrt, invsqrt, inv, recip, exp, ln, cos, sin, atan. Terms are put
 *       together from the left, and so are a term's operands: x-x-x is (x-x)-x, and x/x*x is (x/x)*x. There is no blank, and an
 *       operand has no + or - of its own before it: -1 is written bf800000, and -x as 80000000-x.
 * Back: the refusal in the high 32 bits and the value's word in the low 32; with a refusal the word is 0.
 *       Each +, -, * and / is rounded once and refuses nothing: 1 over 0 is an infinity, and 0 over 0 a NaN. So the value may
 *       be either, and so may x and a number in the line. A value that is a NaN has the word 0x7fc00000. The kernels are the
 *       guarded ones, which refuse both with 1.
 *       The refusals are 13, 14 and 15, the first that holds, and else that of the first kernel that refuses: from left to
 *       right, and those in a kernel's parentheses before that kernel. 14 is told by the parentheses alone, those behind names
 *       too, whatever else the line holds: some beginning of it has at least 17 more ( than ). 15 is given for an empty line,
 *       and for a fault anywhere in it, behind a kernel that refuses too.
 *
 *   dampmeadow_recipe((const uint8_t *)"3f800000+sqrt(x)*x", 18, 0x40800000) == 0x41100000     1 + sqrt(4)*4 is 9
 *   dampmeadow_recipe((const uint8_t *)"x-x-x", 5, 0x3f800000) == 0xbf800000                   (1 - 1) - 1 is -1
 *   dampmeadow_recipe((const uint8_t *)"x/x", 3, 0x00000000) == 0x7fc00000                     0/0: a NaN, and no refusal
 *   dampmeadow_recipe((const uint8_t *)"sqrt(x)", 7, 0xbf800000) == 0x300000000                sqrt of -1: refusal 3
 *   dampmeadow_recipe((const uint8_t *)"sqrt(x)+", 8, 0xbf800000) == 0xf00000000               no recipe: refusal 15
 */
uint64_t dampmeadow_recipe(const uint8_t *line, size_t length, uint32_t x);

/* Calls a kernel on a double, by the number that the same kernel has on a float. These kernels are Dampmeadow's own, after
 * micromath's at 32 bits.
 *
 * In:   op, one of the four below, with DAMPMEADOW_RAW added for its raw form. a, the double's word, its 64 bits; any word.
 *       value, where the answer's word is to be put: one place, and the pointer is not NULL.
 * Back: the refusal, 0 where there is an answer, which is then at value. With a refusal 0 is put there. The refusals are the
 *       first that holds of 6, for every other op; 1, for an infinity or a NaN; and those of the table, 2, 9, 3 and 4.
 *
 *   op                 guarded, takes                      refuses        gives
 *   DAMPMEADOW_TRUNC   |x| under 2^64                      4              the whole part, toward 0, with x's sign
 *   DAMPMEADOW_FRACT   |x| under 2^64                      4              what trunc leaves, with x's sign
 *   DAMPMEADOW_SQRT    0, -0, or x from 2^-1022 on         9, 3           about the square root, of a zero that zero
 *   DAMPMEADOW_INV     |x| from 2^-1022 to 2^1022          2, 9, 4        about 1/x
 *
 *       9 is for a number that is not 0 and too small to be normal: a size under 2^-1022. trunc and fract take such a number
 *       as it is. 3 is for a number below 0, which -0 is not. A guarded form never answers with a NaN.
 *       trunc and fract are exact. sqrt and inv are estimates: the square of what sqrt gives is from x(1 - 1/2^52) to 9x/8,
 *       and x times what inv gives is from 1 to 9/8. As x grows sqrt never falls, and of 2^(2k) it is 2^k, exactly; above 0
 *       inv falls from each number to the next. inv of -x is that of x with the other sign.
 *
 *       A raw form answers every word. Where the guarded form answers it gives the same, but for sqrt of a zero. trunc drops
 *       the bits below the point, and fract keeps them alone; from 2^64 on both count the places of the point modulo 64, for an
 *       infinity and a NaN too, and mean little. sqrt is half the sum of the word and that of 1, 0x3ff0000000000000, rounded
 *       down: of 0 it is 0x1ff8000000000000, and of -0 0x5ff8000000000000. Of a NaN and of a number below 0 it is a NaN,
 *       0x7ff8000000000000. inv is 0x7fe0000000000000 less the word, modulo 2^64; turning x's sign bit turns the answer's and
 *       nothing else, whatever the word.
 *
 *   uint64_t value;
 *   dampmeadow_double(DAMPMEADOW_TRUNC, 0xc004000000000000, &value) == 0      of -2.5: value is 0xc000000000000000, -2
 *   dampmeadow_double(DAMPMEADOW_FRACT, 0xc004000000000000, &value) == 0      of -2.5: value is 0xbfe0000000000000, -0.5
 *   dampmeadow_double(DAMPMEADOW_SQRT, 0x4010000000000000, &value) == 0       of 4: value is 0x4000000000000000, 2
 *   dampmeadow_double(DAMPMEADOW_SQRT, 0xbff0000000000000, &value) == 3       of -1: value is 0
 *   dampmeadow_double(DAMPMEADOW_INV, 0x3ff8000000000000, &value) == 0        of 1.5: value is 0x3fe8000000000000, 0.75
 *   dampmeadow_double(DAMPMEADOW_COS, 0x3ff0000000000000, &value) == 6        no such kernel on doubles: value is 0
 *   dampmeadow_double(DAMPMEADOW_RAW + DAMPMEADOW_SQRT, 0, &value) == 0       of 0, raw: value is 0x1ff8000000000000
 */
uint32_t dampmeadow_double(uint32_t op, uint64_t a, uint64_t *value);

/* ---- The row on screen */

/* Which columns of which row are on screen: those of the scanned row, or of the retouched one.
 *
 * In:   scan and retouch, how many columns each row has; retouched, whether the retouched row is chosen; from and to, the
 *       columns asked for, from the first up to the last, which is not among them. Any numbers may be given.
 *       first and last, where the columns are to be put: two places, and neither pointer is NULL.
 * Back: whether the columns are the retouched row's. Where from <= to and to is no more than the columns of the row chosen,
 *       that is retouched, and first and last are from and to. Else it is false, and first and last are 0 and 0: nothing of the
 *       scanned row. So first <= last holds always, and last is no more than the columns of the row that is told: what lies
 *       from row + first up to row + last is that row's own memory, and nothing has to be copied or looked at again.
 *
 *   size_t first, last;
 *   dampmeadow_columns(6, 6, true, 2, 5, &first, &last) == true          of the retouched row: first is 2 and last 5
 *   dampmeadow_columns(6, 6, false, 2, 5, &first, &last) == false        of the scanned row: first is 2 and last 5
 *   dampmeadow_columns(6, 4, true, 2, 5, &first, &last) == false         past the end: first and last are 0
 *   dampmeadow_columns(6, 6, true, 5, 2, &first, &last) == false         out of order: first and last are 0
 */
bool dampmeadow_columns(size_t scan, size_t retouch, bool retouched, size_t from, size_t to, size_t *first, size_t *last);

/* ---- The second engine
 *
 * dampmeadow_soft.h, which is included above, has dampmeadow_soft_add, _sub, _mul and _div, the arithmetic of floats worked out
 * on words with whole numbers alone, and dampmeadow_soft_cos, _sin, _atan_norm and _atan, which are the raw kernels on it, bit
 * for bit. They answer every word, and the processor's float settings change nothing in them. A controller without floats needs
 * that header and libsoft.a, and nothing of this one.
 */

/* ---- Helpers, in this header alone */

/* The word of a float: dampmeadow_bits(4.0f) == 0x40800000 */
static inline uint32_t dampmeadow_bits(float number)
{
    uint32_t word;
    memcpy(&word, &number, sizeof word);
    return word;
}

/* The float of a word: dampmeadow_float(0x40800000) == 4.0f */
static inline float dampmeadow_float(uint32_t word)
{
    float number;
    memcpy(&number, &word, sizeof number);
    return number;
}

/* The word of a double: dampmeadow_double_bits(4.0) == 0x4010000000000000 */
static inline uint64_t dampmeadow_double_bits(double number)
{
    uint64_t word;
    memcpy(&word, &number, sizeof word);
    return word;
}

/* The double of a word: dampmeadow_double_of(0x4010000000000000) == 4.0 */
static inline double dampmeadow_double_of(uint64_t word)
{
    double number;
    memcpy(&number, &word, sizeof number);
    return number;
}

/* The refusal of a call, 0 where it answered: dampmeadow_refusal_of(0x300000000) == DAMPMEADOW_NEGATIVE */
static inline uint32_t dampmeadow_refusal_of(uint64_t answer)
{
    return (uint32_t)(answer >> 32);
}

/* The mark of a marked call, which is no refusal: dampmeadow_mark_of(0x1bf800000) == DAMPMEADOW_DROPPED */
static inline uint32_t dampmeadow_mark_of(uint64_t answer)
{
    return (uint32_t)(answer >> 32);
}

/* The word of a call's answer: dampmeadow_word_of(0x40000000) == 0x40000000 */
static inline uint32_t dampmeadow_word_of(uint64_t answer)
{
    return (uint32_t)(answer & 0xffffffffu);
}

/* A recipe that is a string, at a float: dampmeadow_recipe_at("sqrt(x)", 4.0f) == 0x40000000 */
static inline uint64_t dampmeadow_recipe_at(const char *line, float x)
{
    return dampmeadow_recipe((const uint8_t *)line, strlen(line), dampmeadow_bits(x));
}

#ifdef __cplusplus
}
#endif

#endif
