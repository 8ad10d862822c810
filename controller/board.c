/* What the emulator's board needs to begin, to speak and to end: a Cortex-M3, which has no floats, with memory at 0 and at
 * 0x20000000, as QEMU's mps2-an385 has it. What is said and how it ended goes to whoever runs the emulator, by semihosting. */
#include "board.h"

extern uint32_t stack_end[]; /* in memory.ld */

int main(void);

_Noreturn void begin(void);

static int host(int what, const void *with)
{
    register int r0 __asm__("r0") = what;
    register const void *r1 __asm__("r1") = with;
    __asm__ volatile("bkpt 0xab" : "+r"(r0) : "r"(r1) : "memory");
    return r0;
}

void say(const char *text)
{
    host(0x04, text);
}

void say_number(uint32_t n)
{
    char digits[11];
    char *at = digits + sizeof digits - 1;
    *at = 0;
    do {
        *--at = (char)('0' + n % 10);
        n /= 10;
    } while (n != 0);
    say(at);
}

void say_word(uint32_t word)
{
    char digits[9];
    for (int i = 0; i < 8; i++) digits[i] = "0123456789abcdef"[word >> (28 - 4 * i) & 15];
    digits[8] = 0;
    say(digits);
}

_Noreturn void stop(int status)
{
    const uint32_t ended[2] = {0x20026, (uint32_t)status};
    host(0x20, ended);
    for (;;) {}
}

/* The first timer counts down by 25 million in a second. */
#define TIMER ((volatile uint32_t *)0x40000000)

uint32_t clock_now(void)
{
    return -TIMER[1];
}

_Noreturn void begin(void)
{
    TIMER[1] = TIMER[2] = 0xffffffff;
    TIMER[0] = 1;
    stop(main());
}

/* An instruction that the processor does not have ends here. */
static _Noreturn void fault(void)
{
    say("the processor met an instruction that it does not have, or memory that is not there\n");
    stop(3);
}

__attribute__((section(".vectors"), used)) static const struct {
    uint32_t *stack;
    void (*handlers[15])(void);
} vectors = {stack_end, {begin, fault, fault, fault, fault, fault, fault, fault, fault, fault, fault, fault, fault, fault, fault}};
