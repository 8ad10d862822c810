/* Replays words.txt on a controller without floats: makes each call and holds its answer to the word that is due, and says of
 * each call how many instructions it took and how much of the stack. Ends with 1 if an answer is wrong or a line is none. */
#include "board.h"
#include "dampmeadow_soft.h"
#include <stddef.h>

static const char words[] = {
#embed "words.txt" suffix(, 0)
};

static uint32_t nothing_of_two(uint32_t a, uint32_t b)
{
    (void)b;
    return a;
}

static uint32_t nothing_of_one(uint32_t a)
{
    return a;
}

static const struct call {
    const char *name;
    uint32_t (*of_two)(uint32_t, uint32_t);
    uint32_t (*of_one)(uint32_t);
} calls[] = {
    {"add", dampmeadow_soft_add, NULL},
    {"sub", dampmeadow_soft_sub, NULL},
    {"mul", dampmeadow_soft_mul, NULL},
    {"div", dampmeadow_soft_div, NULL},
    {"cos", NULL, dampmeadow_soft_cos},
    {"sin", NULL, dampmeadow_soft_sin},
    {"atan_norm", NULL, dampmeadow_soft_atan_norm},
    {"atan", NULL, dampmeadow_soft_atan},
};

/* One instruction each, which returns: what it takes to make a call and to read the clock. */
static const struct call empty[2] = {{"", nothing_of_two, NULL}, {"", NULL, nothing_of_one}};

#define CALLS (sizeof calls / sizeof *calls)

static uint32_t answer(const struct call *call, uint32_t a, uint32_t b)
{
    return call->of_two ? call->of_two(a, b) : call->of_one(a);
}

static __attribute__((noinline)) uint32_t ticks(const struct call *call, uint32_t a, uint32_t b)
{
    const uint32_t from = clock_now();
    answer(call, a, b);
    return clock_now() - from;
}

/* How many instructions a call takes, its return with them: the emulator is run so that each takes 1,024 nanoseconds, which are
 * 25.6 ticks. */
static uint32_t instructions(const struct call *call, uint32_t a, uint32_t b)
{
    const uint32_t own = ticks(call, a, b) - ticks(&empty[call->of_one != NULL], a, b);
    return (own * 5 + 64) / 128 + 1;
}

/* How many bytes of the stack a call uses: each word of it is filled with one that stands in no register, and looked for from its
 * far end. */
static __attribute__((noinline)) uint32_t stack(const struct call *call, uint32_t a, uint32_t b)
{
    enum { DEPTH = 256 };
    const uint32_t pattern = 0xd0d0cafe;
    volatile uint32_t *top;
    __asm__ volatile("mov %0, sp" : "=r"(top));
    for (int i = 1; i <= DEPTH; i++) top[-i] = pattern + (uint32_t)i;
    answer(call, a, b);
    int used = DEPTH;
    while (used > 0 && top[-used] == pattern + (uint32_t)used) used--;
    if (used == DEPTH) say("a call uses more of the stack than was looked at\n"), stop(1);
    return (uint32_t)used * sizeof *top;
}

/* What was seen of a call: how often it was made, its instructions in all, at least and at most, and its stack at most. */
struct seen {
    uint32_t made, in_all, fewest, most, stack;
};

static void see(struct seen *seen, uint32_t count, uint32_t bytes)
{
    seen->fewest = seen->made == 0 || count < seen->fewest ? count : seen->fewest;
    seen->most = count > seen->most ? count : seen->most;
    seen->stack = bytes > seen->stack ? bytes : seen->stack;
    seen->in_all += count;
    seen->made++;
}

/* Goes past a name and the blank behind it, if the text begins so. */
static int takes(const char **text, const char *name)
{
    const char *at = *text;
    while (*name != 0) if (*at++ != *name++) return 0;
    if (*at++ != ' ') return 0;
    *text = at;
    return 1;
}

/* Reads eight digits and goes past them and the character behind them, which has to be this one. */
static uint32_t word(const char **text, char behind)
{
    uint32_t word = 0;
    for (int i = 0; i < 8; i++) {
        const char digit = *(*text)++;
        const int value = digit >= '0' && digit <= '9' ? digit - '0' : digit >= 'a' && digit <= 'f' ? digit - 'a' + 10 : -1;
        if (value < 0) return say("words.txt has a line that is none\n"), stop(1), 0;
        word = word << 4 | (uint32_t)value;
    }
    if (*(*text)++ != behind) return say("words.txt has a line that is none\n"), stop(1), 0;
    return word;
}

static void say_seen(const struct call *call, const struct seen *seen)
{
    say(call->name), say(": "), say_number(seen->made), say(" calls, ");
    say_number(seen->fewest), say(" to "), say_number(seen->most), say(" instructions, ");
    say_number((seen->in_all + seen->made / 2) / seen->made), say(" on average, and "), say_number(seen->stack), say(" bytes of stack\n");
}

int main(void)
{
    struct seen seen[CALLS];
    uint32_t made = 0, wrong = 0;
    for (size_t i = 0; i < CALLS; i++) seen[i].made = seen[i].in_all = seen[i].fewest = seen[i].most = seen[i].stack = 0;
    for (const char *text = words; *text != 0;) {
        size_t i = 0;
        while (i < CALLS && !takes(&text, calls[i].name)) i++;
        if (i == CALLS) return say("words.txt has a call that is none\n"), 1;
        const uint32_t a = word(&text, ' '), b = calls[i].of_two ? word(&text, ' ') : 0, due = word(&text, '\n');
        const uint32_t got = answer(&calls[i], a, b);
        made++;
        if (got != due && wrong++ < 20) {
            say(calls[i].name), say(" of "), say_word(a), say(" and "), say_word(b);
            say(" is "), say_word(got), say(", and "), say_word(due), say(" is due\n");
        }
        see(&seen[i], instructions(&calls[i], a, b), stack(&calls[i], a, b));
    }
    for (size_t i = 0; i < CALLS; i++) {
        if (seen[i].made == 0) return say("words.txt leaves out "), say(calls[i].name), say("\n"), 1;
        say_seen(&calls[i], &seen[i]);
    }
    say_number(made), say(" calls in all, "), say_number(wrong), say(" of them wrong\n");
    return wrong != 0;
}
