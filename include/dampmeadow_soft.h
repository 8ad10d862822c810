/* Dampmeadow's second engine: arithmetic on 32-bit floats worked out with whole numbers alone, for a controller that has no
 * floats. For C (from C99) and C++. This header stands by itself, and there is no float in it; dampmeadow.h includes it.
 *
 * Link it with one library of the two, for x86-64 Linux:
 *
 *   cc -I include program.c target/staticlib/libsoft.a                  these calls alone; `./library soft` builds it
 *   cc -I include program.c target/staticlib/libdampmeadow.a            every call; `./library` builds it
 *
 * libsoft.a has no float instruction, and needs nothing from outside. The same holds of it for a 32-bit ARM without float hardware:
 * controller/run builds it for a Cortex-M3.
 *
 * A number goes in and comes out as 32 bits, its "word", in the format that IEEE 754 calls binary32. The highest bit is the
 * sign, 1 for minus; the next eight are the exponent E, and the last 23 the fraction F:
 *
 *   E from 1 to 254      (1 + F/2^23) * 2^(E - 127)      0x3f800000 is 1, 0xc0200000 is -2.5, 0x7f7fffff is the largest
 *   E = 0                F/2^23 * 2^-126                 0x00000000 is 0, 0x80000000 is -0, 0x00000001 is 2^-149, the smallest
 *   E = 255, F = 0       an infinity                     0x7f800000, and 0xff800000 for -infinity
 *   E = 255, F not 0     a NaN, which is no number       0x7fc00000
 *
 * Every word may be given, and every word is answered: there are no refusals, and no call fails. An answer that is a NaN is
 * always 0x7fc00000, whatever bits and whatever sign a NaN among the operands has.
 *
 * The calls keep nothing between them, so any number of threads may make them at once. They do not depend on the processor's
 * float settings, where it has any: which way it rounds, and whether it takes small numbers for 0, changes no answer.
 *
 * It is proved, for all words, that each of the four operations is rounded as is said below, that it is what IEEE 754's own
 * operation gives, and that each of the four kernels gives what the library's raw kernel of that name gives, bit for bit.
 */
#ifndef DAMPMEADOW_SOFT_H
#define DAMPMEADOW_SOFT_H

#include <stdint.h>

#ifdef __cplusplus
extern "C" {
#endif

/* ---- The four operations
 *
 * The exact result is rounded once: to the nearest number that a word holds, and where two are equally near to the one whose
 * word is even. Numbers with E = 0 are taken and given at their value. A result of half of 0x00000001 or less in size is a
 * zero, and one of 2^128 - 2^103 or more, half a step above 0x7f7fffff, an infinity; both have the result's sign.
 *
 *                    a + b                              a * b                           a / b
 *   a NaN            a NaN                              a NaN                           a NaN
 *   two infinities   of one sign that one, else a NaN   an infinity                     a NaN
 *   one infinity     that one                           with a zero a NaN, else an      a is: an infinity, over 0 too
 *                                                       infinity                        b is: a zero
 *   two zeros        -0 where both are -0, else +0      a zero                          a NaN
 *   one zero         the other number                   a zero                          a is: a zero; b is: an infinity
 *
 * The first row that holds is meant, and "a NaN" there is one or two of them. A product or a quotient, a zero and an infinity
 * too, is minus where the signs of a and b differ. A sum of two numbers that are not 0 is +0 where it is exactly 0. a - b is
 * the sum of a and of b with its sign turned: x - x is +0.
 */

/* a + b.
 *
 * In:   a and b, the operands' words; any words.
 * Back: the word of the sum.
 *
 *   dampmeadow_soft_add(0x3f800000, 0x40000000) == 0x40400000       1 + 2 is 3
 *   dampmeadow_soft_add(0x3f800000, 0x33800000) == 0x3f800000       1 + 2^-24: half way to the next, and the even one is below
 *   dampmeadow_soft_add(0x3f800001, 0x33800000) == 0x3f800002       half way again, and the even one is above
 *   dampmeadow_soft_add(0x7f7fffff, 0x72ffffff) == 0x7f7fffff       less than half a step above the largest
 *   dampmeadow_soft_add(0x7f7fffff, 0x73000000) == 0x7f800000       half a step: infinity
 *   dampmeadow_soft_add(0x80000000, 0x80000000) == 0x80000000       -0 + -0 is -0
 */
uint32_t dampmeadow_soft_add(uint32_t a, uint32_t b);

/* a - b.
 *
 * In:   a and b, the operands' words; any words.
 * Back: the word of the difference.
 *
 *   dampmeadow_soft_sub(0x3f800000, 0x40000000) == 0xbf800000       1 - 2 is -1
 *   dampmeadow_soft_sub(0xc0200000, 0xc0200000) == 0x00000000       x - x is +0
 *   dampmeadow_soft_sub(0x80000000, 0x00000000) == 0x80000000       -0 - 0 is -0
 *   dampmeadow_soft_sub(0x00800000, 0x00000001) == 0x007fffff       too small to be normal, and kept at its value
 *   dampmeadow_soft_sub(0x7f800000, 0x7f800000) == 0x7fc00000       infinity less infinity is a NaN
 */
uint32_t dampmeadow_soft_sub(uint32_t a, uint32_t b);

/* a * b.
 *
 * In:   a and b, the operands' words; any words.
 * Back: the word of the product.
 *
 *   dampmeadow_soft_mul(0x40000000, 0xc0400000) == 0xc0c00000       2 * -3 is -6
 *   dampmeadow_soft_mul(0x00000001, 0x3f000000) == 0x00000000       half of the smallest: a tie, and 0 is even
 *   dampmeadow_soft_mul(0x80000001, 0x3f000000) == 0x80000000       the same below 0 is -0
 *   dampmeadow_soft_mul(0x00000003, 0x3f000000) == 0x00000002       1.5 times the smallest: a tie, and 2 is even
 *   dampmeadow_soft_mul(0x00000000, 0x7f800000) == 0x7fc00000       0 * infinity is a NaN
 */
uint32_t dampmeadow_soft_mul(uint32_t a, uint32_t b);

/* a / b.
 *
 * In:   a and b, the operands' words; any words.
 * Back: the word of the quotient.
 *
 *   dampmeadow_soft_div(0x3f800000, 0x40400000) == 0x3eaaaaab       1 / 3
 *   dampmeadow_soft_div(0x00000001, 0x3f000001) == 0x00000002       the smallest, over a little more than a half
 *   dampmeadow_soft_div(0x00000001, 0x7f7fffff) == 0x00000000       the smallest over the largest
 *   dampmeadow_soft_div(0x3f800000, 0x80000000) == 0xff800000       1 / -0 is -infinity
 *   dampmeadow_soft_div(0x00000000, 0x00000000) == 0x7fc00000       0 / 0 is a NaN
 */
uint32_t dampmeadow_soft_div(uint32_t a, uint32_t b);

/* ---- The four kernels
 *
 * Estimates, as they are in micromath, and raw: every word is answered, and which of them mean something is for the caller to
 * know. To 256 in size cos and sin are 0.0012 off at most. They are further off the larger the angle is, but from -1 to 1 of
 * every angle to 26353588 in size; of a larger one they are 0, 1 or -4.35, and of one above 1.3*10^10 any number, an infinity too.
 * Under 2^64 in size atan_norm lies from -1 to 1 and atan from 0xbfc90fdb to 0x3fc90fdb, the floats of -pi/2 and pi/2, and
 * turning the sign bit of the operand turns that of the answer and nothing else; from there on both are a NaN, of an infinity
 * too.
 */

/* The cosine of an angle in radians.
 *
 * In:   a, the angle's word; any word.
 * Back: the word that dampmeadow_words gives for DAMPMEADOW_RAW + DAMPMEADOW_COS.
 *
 *   dampmeadow_soft_cos(0x00000000) == 0x3f800000       of 0 it is 1
 *   dampmeadow_soft_cos(0x3f800000) == 0x3f0a5d25       of 1 it is 0.540483773; the cosine is 0.540302306
 *   dampmeadow_soft_cos(0x7fc00000) == 0x7fc00000       of a NaN it is a NaN
 */
uint32_t dampmeadow_soft_cos(uint32_t a);

/* The sine of an angle in radians.
 *
 * In:   a, the angle's word; any word.
 * Back: the word that dampmeadow_words gives for DAMPMEADOW_RAW + DAMPMEADOW_SIN.
 *
 *   dampmeadow_soft_sin(0x3f800000) == 0x3f57984f       of 1 it is 0.842167795; the sine is 0.841470985
 *   dampmeadow_soft_sin(0x7fc00000) == 0x7fc00000       of a NaN it is a NaN
 */
uint32_t dampmeadow_soft_sin(uint32_t a);

/* The arctangent as a share of a quarter turn.
 *
 * In:   a, the operand's word; any word.
 * Back: the word that dampmeadow_atan_norm gives.
 *
 *   dampmeadow_soft_atan_norm(0x3f800000) == 0x3f000000       of 1 it is 0.5
 *   dampmeadow_soft_atan_norm(0xbf800000) == 0xbf000000       of -1 it is -0.5
 *   dampmeadow_soft_atan_norm(0x7f800000) == 0x7fc00000       of infinity it is a NaN
 */
uint32_t dampmeadow_soft_atan_norm(uint32_t a);

/* The arctangent in radians: atan_norm times pi/2, 0x3fc90fdb, rounded.
 *
 * In:   a, the operand's word; any word.
 * Back: the word that dampmeadow_words gives for DAMPMEADOW_RAW + DAMPMEADOW_ATAN.
 *
 *   dampmeadow_soft_atan(0x3f000000) == 0x3eeec47c       of 0.5 it is 0.466342807; the arctangent is 0.463647609
 *   dampmeadow_soft_atan(0x7f800000) == 0x7fc00000       of infinity it is a NaN
 */
uint32_t dampmeadow_soft_atan(uint32_t a);

#ifdef __cplusplus
}
#endif

#endif
