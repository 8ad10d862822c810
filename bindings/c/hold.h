/* What calls.c, doubles.c, order.c, recipes.c and soft.c, the five files of the test in C, share. */
#ifndef HOLD_H
#define HOLD_H

#include <stdint.h>

/* In calls.c: one answer, refusal or mark above word, beside the one that is due. Counts it, and says if it is wrong and among
 * the first hundred that are. */
void hold(const char *what, uint64_t answer, uint64_t due);

/* In doubles.c: holds so what kernels on doubles give, and the columns of the row on screen. */
void doubles(void);
void columns(void);

/* In order.c: holds so that answers are in order, odd and within their ends. */
void order(void);

/* In recipes.c: holds every recipe's answer so. */
void recipes(void);

/* In soft.c: the same of the second engine's answers. */
void second_engine(void);

#endif
