/* What board.c gives to the program: words and numbers to say, the end, and a clock. */
#ifndef BOARD_H
#define BOARD_H

#include <stdint.h>

void say(const char *text);
void say_number(uint32_t n);
void say_word(uint32_t word);

/* Ends the run with this status, 0 if all is well. */
_Noreturn void stop(int status);

/* Ticks since the start, 25 million in a second; it begins again after 2^32. */
uint32_t clock_now(void);

#endif
