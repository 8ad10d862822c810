/* The headers' examples, from C: each call beside the answer that is due. Says which are wrong and exits with 1 if any is. The
 * recipes are in recipes.c, order and oddness in order.c, doubles and the row on screen in doubles.c, and the second engine is
 * in soft.c. */
#include "dampmeadow.h"
#include "hold.h"
#include <inttypes.h>
#include <stdio.h>

static int tried, wrong;

void hold(const char *what, uint64_t answer, uint64_t due)
{
    tried++;
    if (answer == due) return;
    if (wrong++ >= 100) return; /* the first hundred say enough */
    printf("%s: %010" PRIx64 ", and %010" PRIx64 " is due\n", what, answer, due);
}

/* A guarded call that is answered. */
static void gives(const char *what, uint32_t op, float a, uint32_t b, float due)
{
    hold(what, dampmeadow_words(op, dampmeadow_bits(a), b), dampmeadow_bits(due));
}

static void refuses(const char *what, uint32_t op, uint32_t a, uint32_t b, uint32_t refusal)
{
    hold(what, dampmeadow_words(op, a, b), (uint64_t)refusal << 32);
}

/* The two parts of a number: the refusal, and then each word, in places that hold others before. */
static void parts(const char *what, uint32_t a, uint32_t refusal, uint32_t whole, uint32_t rest)
{
    uint32_t w = 1, r = 2;
    hold(what, dampmeadow_parts(a, &w, &r), refusal);
    hold(what, w, whole);
    hold(what, r, rest);
}

/* The products of guarded powi, to a power and then to the same below 0. */
static void products(const char *what, uint32_t a, int32_t n, uint32_t due, uint32_t due_below)
{
    hold(what, dampmeadow_powi_products(a, n), due);
    hold(what, dampmeadow_powi_products(a, -n), due_below);
}

/* Raw floor and ceil of a word, each with its mark, and then by number: the words have to be the same. */
static void marks(const char *what, uint32_t a, uint32_t floor_mark, uint32_t floor_word, uint32_t ceil_mark,
                  uint32_t ceil_word)
{
    hold(what, dampmeadow_floor_marked(a), (uint64_t)floor_mark << 32 | floor_word);
    hold(what, dampmeadow_words(DAMPMEADOW_RAW + DAMPMEADOW_FLOOR, a, 0), floor_word);
    hold(what, dampmeadow_ceil_marked(a), (uint64_t)ceil_mark << 32 | ceil_word);
    hold(what, dampmeadow_words(DAMPMEADOW_RAW + DAMPMEADOW_CEIL, a, 0), ceil_word);
}

/* A record of grain, its mean and its sum given as words. */
static struct dampmeadow_grain record(uint32_t count, uint32_t refused, uint32_t mean, uint32_t sum)
{
    struct dampmeadow_grain grain = {count, refused, dampmeadow_float(mean), dampmeadow_float(sum)};
    return grain;
}

/* The four fields of a record: the two counts, and then the words of mean and sum. */
static void holds(const char *what, const struct dampmeadow_grain *grain, const struct dampmeadow_grain *due)
{
    hold(what, (uint64_t)grain->count << 32 | grain->refused, (uint64_t)due->count << 32 | due->refused);
    hold(what, (uint64_t)dampmeadow_bits(grain->mean) << 32 | dampmeadow_bits(grain->sum),
         (uint64_t)dampmeadow_bits(due->mean) << 32 | dampmeadow_bits(due->sum));
}

/* An offer: the refusal, and then the record, which `due` is to be. */
static void offer(const char *what, struct dampmeadow_grain *grain, uint32_t sample, uint32_t refusal,
                  struct dampmeadow_grain due)
{
    hold(what, dampmeadow_grain_offer(grain, sample), refusal);
    holds(what, grain, &due);
}

/* The same of a record that is given for this offer alone. */
static void offer_to(const char *what, struct dampmeadow_grain grain, uint32_t sample, uint32_t refusal,
                     struct dampmeadow_grain due)
{
    offer(what, &grain, sample, refusal, due);
}

/* A fresh record, all zeros, after these samples, of which each is taken. */
static void taken(const char *what, const uint32_t *samples, size_t number, uint32_t mean, uint32_t sum)
{
    struct dampmeadow_grain grain = {0, 0, 0.0f, 0.0f};
    const struct dampmeadow_grain due = record((uint32_t)number, 0, mean, sum);
    for (size_t i = 0; i < number; i++) hold(what, dampmeadow_grain_offer(&grain, samples[i]), DAMPMEADOW_ANSWERED);
    holds(what, &grain, &due);
}

/* A place of a strip before the call: 99 is no refusal. */
#define UNTOUCHED 0x6300000063

/* A strip over 4, -1 and 0: what is returned, and then each place, refusal above word. `lent` is how many places of each list
 * are lent. Without a second list the first is lent twice, and without a list of what is due each place has to stay. */
static void strip(const char *what, uint32_t op, const uint32_t *second, const size_t *lent, uint32_t refusal,
                  const uint64_t *due)
{
    const uint32_t first[3] = {0x40800000, 0xbf800000, 0x00000000};
    uint32_t answers[3] = {99, 99, 99}, refusals[3] = {99, 99, 99};
    if (!second) second = first;
    hold(what, dampmeadow_strip(op, first, lent[0], second, lent[1], answers, lent[2], refusals, lent[3]), refusal);
    for (int i = 0; i < 3; i++) hold(what, (uint64_t)refusals[i] << 32 | answers[i], due ? due[i] : UNTOUCHED);
}

/* A line of text into a space of 16 bytes, of which `room` are lent: the refusal, the answer, and the bytes that stay. */
static void line(const char *text, size_t room, uint32_t refusal, const char *answer)
{
    uint8_t space[17] = "................";
    char due[17] = "................";
    memcpy(due, answer, strlen(answer));
    hold(text, dampmeadow_answer((const uint8_t *)text, strlen(text), space, room), refusal);
    tried++;
    if (memcmp(space, due, sizeof due) == 0) return;
    wrong++;
    printf("the answer to '%s' is '%.16s', and '%.16s' is due\n", text, (const char *)space, due);
}

int main(void)
{
    const uint32_t nan = 0x7fc00000;

    gives("trunc -2.5", DAMPMEADOW_TRUNC, -2.5f, 0, -2.0f);
    gives("fract -2.5", DAMPMEADOW_FRACT, -2.5f, 0, -0.5f);
    gives("floor -0.5", DAMPMEADOW_FLOOR, -0.5f, 0, -1.0f);
    gives("ceil 2.5", DAMPMEADOW_CEIL, 2.5f, 0, 3.0f);
    gives("round 2.5", DAMPMEADOW_ROUND, 2.5f, 0, 3.0f);
    gives("abs -2.5", DAMPMEADOW_ABS, -2.5f, 0, 2.5f);
    gives("copysign 2.5 -1", DAMPMEADOW_COPYSIGN, 2.5f, dampmeadow_bits(-1.0f), -2.5f);
    gives("signum -2.5", DAMPMEADOW_SIGNUM, -2.5f, 0, -1.0f);
    gives("sqrt 4", DAMPMEADOW_SQRT, 4.0f, 0, 2.0f);
    gives("sqrt 2", DAMPMEADOW_SQRT, 2.0f, 0, 1.5f);
    gives("sqrt 0", DAMPMEADOW_SQRT, 0.0f, 0, 0.0f);
    gives("sqrt -0", DAMPMEADOW_SQRT, -0.0f, 0, -0.0f);
    gives("invsqrt 1", DAMPMEADOW_INVSQRT, 1.0f, 0, 0.966225028f);
    gives("inv 1.5", DAMPMEADOW_INV, 1.5f, 0, 0.75f);
    gives("inv -1.5", DAMPMEADOW_INV, -1.5f, 0, -0.75f);
    gives("inv -1", DAMPMEADOW_INV, -1.0f, 0, -1.0f);
    gives("inv -2^126", DAMPMEADOW_INV, -0x1p126f, 0, -0x1p-126f);
    gives("inv -2^-126", DAMPMEADOW_INV, -0x1p-126f, 0, -0x1p126f);
    gives("recip 4", DAMPMEADOW_RECIP, 4.0f, 0, 0.250000119f);
    gives("exp 0.5", DAMPMEADOW_EXP, 0.5f, 0, 1.6484375f);
    gives("ln 0.75", DAMPMEADOW_LN, 0.75f, 0, -0.405448198f);
    gives("ln 0.99", DAMPMEADOW_LN, 0.99f, 0, -0.0198061466f);
    gives("powi 3 3", DAMPMEADOW_POWI, 3.0f, 3, 27.0f);
    gives("powi 2 -1", DAMPMEADOW_POWI, 2.0f, (uint32_t)-1, 0.5f);
    gives("powf 0.75 2", DAMPMEADOW_POWF, 0.75f, dampmeadow_bits(2.0f), 0.444459558f);
    gives("atan 0.5", DAMPMEADOW_ATAN, 0.5f, 0, 0.466342807f);
    gives("atan2 1 2", DAMPMEADOW_ATAN2, 1.0f, dampmeadow_bits(2.0f), 0.466342807f);
    gives("atan2 1 0", DAMPMEADOW_ATAN2, 1.0f, 0, 1.57079637f);
    gives("atan2 2^62 -2^62", DAMPMEADOW_ATAN2, 0x1p62f, dampmeadow_bits(-0x1p62f), 2.35619449f);
    gives("cos 1", DAMPMEADOW_COS, 1.0f, 0, 0.540483773f);
    gives("cos 256", DAMPMEADOW_COS, 256.0f, 0, -0.0393502489f);
    gives("cos -256", DAMPMEADOW_COS, -256.0f, 0, -0.0393502489f);
    gives("sin 1", DAMPMEADOW_SIN, 1.0f, 0, 0.842167795f);
    gives("sin 256", DAMPMEADOW_SIN, 256.0f, 0, -0.999213219f);
    gives("sin -256", DAMPMEADOW_SIN, -256.0f, 0, 0.999213219f);
    gives("hypot 3 4", DAMPMEADOW_HYPOT, 3.0f, dampmeadow_bits(4.0f), 5.125f);
    gives("hypot 0 -2^62", DAMPMEADOW_HYPOT, 0.0f, dampmeadow_bits(-0x1p62f), 0x1p62f);
    gives("asin 0.5", DAMPMEADOW_ASIN, 0.5f, 0, 0.536748469f);
    gives("asin -0", DAMPMEADOW_ASIN, -0.0f, 0, -0.0f);
    gives("asin 0.1", DAMPMEADOW_ASIN, 0.1f, 0, 0.0940035135f);
    gives("acos 0.5", DAMPMEADOW_ACOS, 0.5f, 0, 1.04882419f);
    gives("acos -0.5", DAMPMEADOW_ACOS, -0.5f, 0, 2.09276867f);
    gives("acos 0.75", DAMPMEADOW_ACOS, 0.75f, 0, 0.742633045f);
    gives("acos -0", DAMPMEADOW_ACOS, -0.0f, 0, 1.57079637f);
    gives("tan 1", DAMPMEADOW_TAN, 1.0f, 0, 1.55817401f);
    gives("tan 1.5", DAMPMEADOW_TAN, 1.5f, 0, 14.2437534f);
    gives("tan 1.57", DAMPMEADOW_TAN, 1.57f, 0, 1272.61206f);
    gives("tan 256", DAMPMEADOW_TAN, 256.0f, 0, 25.3928051f);
    gives("tan -256", DAMPMEADOW_TAN, -256.0f, 0, -25.3928051f);
    gives("tan -0.00000005", DAMPMEADOW_TAN, -0.00000005f, 0, 0.0f);
    gives("rem_euclid -7 3", DAMPMEADOW_REM_EUCLID, -7.0f, dampmeadow_bits(3.0f), 2.0f);
    gives("rem_euclid -3 3", DAMPMEADOW_REM_EUCLID, -3.0f, dampmeadow_bits(3.0f), -0.0f);
    gives("rem_euclid -1e-45 1", DAMPMEADOW_REM_EUCLID, -1e-45f, dampmeadow_bits(1.0f), 1.0f);
    gives("rem_euclid 1 0.1", DAMPMEADOW_REM_EUCLID, 1.0f, dampmeadow_bits(0.1f), 0.0999999866f);
    gives("div_euclid -7 3", DAMPMEADOW_DIV_EUCLID, -7.0f, dampmeadow_bits(3.0f), -3.0f);
    gives("div_euclid -7 -3", DAMPMEADOW_DIV_EUCLID, -7.0f, dampmeadow_bits(-3.0f), 3.0f);
    gives("div_euclid 1 0.1", DAMPMEADOW_DIV_EUCLID, 1.0f, dampmeadow_bits(0.1f), 10.0f);

    refuses("exp of a NaN", DAMPMEADOW_EXP, nan, 0, DAMPMEADOW_NOT_FINITE);
    refuses("ln 0", DAMPMEADOW_LN, 0, 0, DAMPMEADOW_ZERO);
    refuses("inv -0", DAMPMEADOW_INV, 0x80000000, 0, DAMPMEADOW_ZERO);
    refuses("inv, the largest that is not normal, below 0", DAMPMEADOW_INV, 0x807fffff, 0, DAMPMEADOW_SMALL);
    refuses("inv, the first above 2^126", DAMPMEADOW_INV, 0x7e800001, 0, DAMPMEADOW_OUTSIDE);
    refuses("inv, the first below -2^126", DAMPMEADOW_INV, 0xfe800001, 0, DAMPMEADOW_OUTSIDE);
    refuses("ln, the largest that is not normal", DAMPMEADOW_LN, 0x007fffff, 0, DAMPMEADOW_SMALL);
    refuses("sqrt, the smallest", DAMPMEADOW_SQRT, 0x00000001, 0, DAMPMEADOW_SMALL);
    refuses("sqrt, the smallest below 0", DAMPMEADOW_SQRT, 0x80000001, 0, DAMPMEADOW_SMALL);
    refuses("powi, the smallest to 1048577", DAMPMEADOW_POWI, 0x00000001, 1048577, DAMPMEADOW_SMALL);
    refuses("sqrt -1", DAMPMEADOW_SQRT, 0xbf800000, 0, DAMPMEADOW_NEGATIVE);
    refuses("invsqrt -1", DAMPMEADOW_INVSQRT, 0xbf800000, 0, DAMPMEADOW_NEGATIVE);
    refuses("atan2 0 0", DAMPMEADOW_ATAN2, 0, 0, DAMPMEADOW_OUTSIDE);
    refuses("atan2, the first above 2^62 and 0", DAMPMEADOW_ATAN2, 0x5e800001, 0, DAMPMEADOW_OUTSIDE);
    refuses("cos, the first above 256", DAMPMEADOW_COS, 0x43800001, 0, DAMPMEADOW_OUTSIDE);
    refuses("cos, the first below -256", DAMPMEADOW_COS, 0xc3800001, 0, DAMPMEADOW_OUTSIDE);
    refuses("sin, the first above 256", DAMPMEADOW_SIN, 0x43800001, 0, DAMPMEADOW_OUTSIDE);
    refuses("sin, the first below -256", DAMPMEADOW_SIN, 0xc3800001, 0, DAMPMEADOW_OUTSIDE);
    refuses("hypot 0 0", DAMPMEADOW_HYPOT, 0, 0, DAMPMEADOW_OUTSIDE);
    refuses("hypot 0 and the first below -2^62", DAMPMEADOW_HYPOT, 0, 0xde800001, DAMPMEADOW_OUTSIDE);
    refuses("asin 1", DAMPMEADOW_ASIN, 0x3f800000, 0, DAMPMEADOW_OUTSIDE);
    refuses("acos -1", DAMPMEADOW_ACOS, 0xbf800000, 0, DAMPMEADOW_OUTSIDE);
    refuses("acos, the last below 2^-60", DAMPMEADOW_ACOS, 0x217fffff, 0, DAMPMEADOW_OUTSIDE);
    refuses("tan pi/2", DAMPMEADOW_TAN, 0x3fc90fdb, 0, DAMPMEADOW_OUTSIDE);
    refuses("tan, the first above 256", DAMPMEADOW_TAN, 0x43800001, 0, DAMPMEADOW_OUTSIDE);
    refuses("tan, the first below -256", DAMPMEADOW_TAN, 0xc3800001, 0, DAMPMEADOW_OUTSIDE);
    refuses("rem_euclid 1 0", DAMPMEADOW_REM_EUCLID, 0x3f800000, 0, DAMPMEADOW_OUTSIDE);
    refuses("rem_euclid 0 0", DAMPMEADOW_REM_EUCLID, 0, 0, DAMPMEADOW_OUTSIDE);
    refuses("rem_euclid 1 and a NaN", DAMPMEADOW_REM_EUCLID, 0x3f800000, nan, DAMPMEADOW_NOT_FINITE);
    refuses("div_euclid 2^23 1", DAMPMEADOW_DIV_EUCLID, 0x4b000000, 0x3f800000, DAMPMEADOW_OUTSIDE);
    refuses("div_euclid of infinity by 0", DAMPMEADOW_DIV_EUCLID, 0x7f800000, 0, DAMPMEADOW_NOT_FINITE);
    refuses("powi 3 1048577", DAMPMEADOW_POWI, 0x40400000, 1048577, DAMPMEADOW_POWER_OUTSIDE);
    refuses("operation 1f", 0x1f, 0, 0, DAMPMEADOW_NO_SUCH_OPERATION);
    refuses("operation 1b", DAMPMEADOW_DIV_EUCLID + 1, 0, 0, DAMPMEADOW_NO_SUCH_OPERATION);
    refuses("sqrt with a second word", DAMPMEADOW_SQRT, 0x40800000, 1, DAMPMEADOW_MALFORMED);
    refuses("tan with a second word", DAMPMEADOW_TAN, 0x3f800000, 1, DAMPMEADOW_MALFORMED);

    hold("raw sqrt 0", dampmeadow_words(DAMPMEADOW_RAW + DAMPMEADOW_SQRT, 0, 0), 0x1fc00000);
    hold("raw sqrt -0", dampmeadow_words(DAMPMEADOW_RAW + DAMPMEADOW_SQRT, 0x80000000, 0), 0x5fc00000);
    hold("raw atan2 0 0", dampmeadow_words(DAMPMEADOW_RAW + DAMPMEADOW_ATAN2, 0, 0), nan);
    hold("raw abs keeps a NaN's bits", dampmeadow_words(DAMPMEADOW_RAW + DAMPMEADOW_ABS, 0xff800001, 0), 0x7f800001);
    hold("raw asin 1", dampmeadow_words(DAMPMEADOW_RAW + DAMPMEADOW_ASIN, 0x3f800000, 0), 0x3fc90fdb);
    hold("raw acos, the smallest", dampmeadow_words(DAMPMEADOW_RAW + DAMPMEADOW_ACOS, 0x00000001, 0), nan);
    hold("raw cos 1024", dampmeadow_words(DAMPMEADOW_RAW + DAMPMEADOW_COS, 0x44800000, 0), 0x3f7cc870);
    hold("raw tan pi/2", dampmeadow_words(DAMPMEADOW_RAW + DAMPMEADOW_TAN, 0x3fc90fdb, 0), 0x7f800000);
    hold("raw rem_euclid 0 0", dampmeadow_words(DAMPMEADOW_RAW + DAMPMEADOW_REM_EUCLID, 0, 0), nan);
    hold("raw div_euclid 0 0", dampmeadow_words(DAMPMEADOW_RAW + DAMPMEADOW_DIV_EUCLID, 0, 0), 0x7f800000);

    hold("atan_norm 1, guarded", dampmeadow_atan_norm_guarded(0x3f800000), 0x3f000000);
    hold("atan_norm of a NaN, guarded", dampmeadow_atan_norm_guarded(nan), (uint64_t)DAMPMEADOW_NOT_FINITE << 32);
    hold("atan_norm 1", dampmeadow_atan_norm(0x3f800000), 0x3f000000);
    hold("atan_norm of infinity", dampmeadow_atan_norm(0x7f800000), nan);

    parts("the parts of -2.5", 0xc0200000, DAMPMEADOW_ANSWERED, 0xc0000000, 0xbf000000);
    parts("the parts of -0", 0x80000000, DAMPMEADOW_ANSWERED, 0x80000000, 0x80000000);
    parts("the parts of the last below 2^32", 0x4f7fffff, DAMPMEADOW_ANSWERED, 0x4f7fffff, 0);
    parts("the parts of 2^32", 0x4f800000, DAMPMEADOW_OUTSIDE, 0, 0);
    parts("the parts of a NaN", nan, DAMPMEADOW_NOT_FINITE, 0, 0);

    products("products of 3 to 0", 0x40400000, 0, 0, 0);
    products("products of 3 to 1", 0x40400000, 1, 1, 1);
    products("products of 3 to 3", 0x40400000, 3, 3, 3);
    products("products of 3 to 4", 0x40400000, 4, 3, 3);
    products("products of 3 to 127", 0x40400000, 127, 13, 13);
    products("products of 3 to 128, early above alone", 0x40400000, 128, 0, 8);
    products("products of 2 to 150, early on both sides", 0x40000000, 150, 0, 0);
    products("products of 0.4 to 75, early on both sides", 0x3ecccccd, 75, 0, 0);
    products("products of 0.4 to 74", 0x3ecccccd, 74, 9, 0);
    products("products of -1.5 to 1048575", 0xbfc00000, 1048575, 39, 39);
    products("products of 1 to 1048576", 0x3f800000, 1048576, 21, 21);
    products("products of 1 to 1048577, which is refused", 0x3f800000, 1048577, 0, 0);
    products("products of 0, which is refused", 0x00000000, 3, 0, 0);
    products("products of a small number, which is refused", 0x007fffff, 1, 0, 0);
    products("products of an infinity, which is refused", 0x7f800000, 1, 0, 0);
    products("products of a NaN, which is refused", nan, 1, 0, 0);
    hold("products to the least power, which is refused", dampmeadow_powi_products(0x3f800000, INT32_MIN), 0);

    const uint32_t exact = DAMPMEADOW_EXACT, dropped = DAMPMEADOW_DROPPED, high = DAMPMEADOW_CLIPPED_HIGH;
    const uint32_t low = DAMPMEADOW_CLIPPED_LOW, no_number = DAMPMEADOW_NOT_A_NUMBER;
    marks("the marks of 0", 0x00000000, exact, 0x00000000, exact, 0x80000000);
    marks("the marks of -0", 0x80000000, exact, 0x00000000, exact, 0x80000000);
    marks("the marks of the smallest", 0x00000001, dropped, 0x00000000, dropped, 0x3f800000);
    marks("the marks of the smallest below 0", 0x80000001, dropped, 0xbf800000, dropped, 0x80000000);
    marks("the marks of 0.5", 0x3f000000, dropped, 0x00000000, dropped, 0x3f800000);
    marks("the marks of -0.5", 0xbf000000, dropped, 0xbf800000, dropped, 0x80000000);
    marks("the marks of 2.5", 0x40200000, dropped, 0x40000000, dropped, 0x40400000);
    marks("the marks of -3", 0xc0400000, exact, 0xc0400000, exact, 0xc0400000);
    marks("the marks of the last below 2^31", 0x4effffff, exact, 0x4effffff, exact, 0x4effffff);
    marks("the marks of 2^31", 0x4f000000, high, 0x4f000000, exact, 0x4f000000);
    marks("the marks of the first above 2^31", 0x4f000001, high, 0x4f000000, low, 0x4f000000);
    marks("the marks of -2^31", 0xcf000000, exact, 0xcf000000, high, 0xcf000000);
    marks("the marks of the first below -2^31", 0xcf000001, low, 0xcf000000, high, 0xcf000000);
    marks("the marks of 3e9", 0x4f32d05e, high, 0x4f000000, low, 0x4f000000);
    marks("the marks of -3e9", 0xcf32d05e, low, 0xcf000000, high, 0xcf000000);
    marks("the marks of infinity", 0x7f800000, high, 0x4f000000, low, 0x4f000000);
    marks("the marks of -infinity", 0xff800000, low, 0xcf000000, high, 0xcf000000);
    marks("the marks of a NaN", nan, no_number, 0x00000000, no_number, 0x80000000);
    marks("the marks of a NaN with a sign", 0xffc00001, no_number, 0x00000000, no_number, 0x80000000);

    hold("the size of a record", sizeof(struct dampmeadow_grain), 16);
    hold("where count is", offsetof(struct dampmeadow_grain, count), 0);
    hold("where refused is", offsetof(struct dampmeadow_grain, refused), 4);
    hold("where mean is", offsetof(struct dampmeadow_grain, mean), 8);
    hold("where sum is", offsetof(struct dampmeadow_grain, sum), 12);

    /* one record through the header's examples and on, between two words that have to stay */
    struct {
        uint32_t before;
        struct dampmeadow_grain grain;
        uint32_t after;
    } lent;
    memset(&lent, 0, sizeof lent);
    lent.before = lent.after = 99;
    offer("2 to a fresh record", &lent.grain, 0x40000000, DAMPMEADOW_ANSWERED, record(1, 0, 0x40000000, 0));
    offer("then 4", &lent.grain, 0x40800000, DAMPMEADOW_ANSWERED, record(2, 0, 0x40400000, 0x40000000));
    offer("then a NaN", &lent.grain, nan, DAMPMEADOW_NOT_FINITE, record(2, 1, 0x40400000, 0x40000000));
    offer("then the first above 2^20", &lent.grain, 0x49800001, DAMPMEADOW_OUTSIDE, record(2, 2, 0x40400000, 0x40000000));
    offer("then infinity", &lent.grain, 0x7f800000, DAMPMEADOW_NOT_FINITE, record(2, 3, 0x40400000, 0x40000000));
    offer("then 3", &lent.grain, 0x40400000, DAMPMEADOW_ANSWERED, record(3, 3, 0x40400000, 0x40000000));
    hold("the word before a record", lent.before, 99);
    hold("the word after a record", lent.after, 99);

    const uint32_t four[4] = {0x3f800000, 0x40000000, 0x40400000, 0x40800000};
    const uint32_t eight[8] = {0x40000000, 0x40800000, 0x40800000, 0x40800000, 0x40a00000, 0x40a00000, 0x40e00000, 0x41100000};
    const uint32_t uneven[4] = {0x3f000000, 0x3f4ccccd, 0x3e4ccccd, 0x3f666666};
    const uint32_t leap[4] = {0x3dcccccd, 0x3dcccccd, 0x3dcccccd, 0x3f19999a};
    const uint32_t small[3] = {0x00000001, 0x80000001, 0x00000003}, brink[2] = {0x807fffff, 0x00800000};
    const uint32_t zeros[3] = {0x80000000, 0x80000000, 0x80000000}, ends[2] = {0x49800000, 0xc9800000};
    taken("1, 2, 3, 4", four, 4, 0x40200000, 0x40a00000);
    taken("2, 4, 4, 4, 5, 5, 7, 9", eight, 8, 0x40a00000, 0x42000000);
    taken("0.5, 0.8, 0.2, 0.9", uneven, 4, 0x3f19999a, 0x3e99999a);
    taken("0.1 thrice and 0.6", leap, 4, 0x3e666666, 0x3e400001);
    taken("0.1 thrice", leap, 3, 0x3dcccccd, 0);
    taken("three that are not normal", small, 3, 0x00000001, 0);
    taken("the last that is not normal, below 0, and the first that is", brink, 2, 0x00000001, 0);
    taken("-0", zeros, 1, 0, 0);
    taken("-0 thrice", zeros, 3, 0, 0);
    taken("2^20 and -2^20", ends, 2, 0, 0x54000000);
    taken("nothing", four, 0, 0, 0);

    /* the steps from a record of mean 0.5 and sum 0.25, and both sides of each gate */
    const uint32_t half = 0x3f000000, quarter = 0x3e800000, one = 0x3f800000, most = 65536, end = 4294967295;
    const struct dampmeadow_grain some = record(3, 2, half, quarter), turned = record(3, 3, half, quarter);
    const struct dampmeadow_grain full = record(most, 2, half, quarter), fuller = record(most, 3, half, quarter);
    offer_to("2^20", some, 0x49800000, DAMPMEADOW_ANSWERED, record(4, 2, 0x4880000c, 0x533ffff4));
    offer_to("-2^20", some, 0xc9800000, DAMPMEADOW_ANSWERED, record(4, 2, 0xc87fffe8, 0x5340000c));
    offer_to("the first above 2^20", some, 0x49800001, DAMPMEADOW_OUTSIDE, turned);
    offer_to("the first below -2^20", some, 0xc9800001, DAMPMEADOW_OUTSIDE, turned);
    offer_to("the largest", some, 0x7f7fffff, DAMPMEADOW_OUTSIDE, turned);
    offer_to("the lowest", some, 0xff7fffff, DAMPMEADOW_OUTSIDE, turned);
    offer_to("infinity", some, 0x7f800000, DAMPMEADOW_NOT_FINITE, turned);
    offer_to("-infinity", some, 0xff800000, DAMPMEADOW_NOT_FINITE, turned);
    offer_to("a NaN", some, nan, DAMPMEADOW_NOT_FINITE, turned);
    offer_to("a NaN that signals", some, 0x7f800001, DAMPMEADOW_NOT_FINITE, turned);
    offer_to("a NaN of all ones", some, 0xffffffff, DAMPMEADOW_NOT_FINITE, turned);
    offer_to("the last sample", record(most - 1, 0, half, quarter), one, DAMPMEADOW_ANSWERED,
             record(most, 0, 0x3f000080, 0x3effff80));
    offer_to("one too many", full, one, DAMPMEADOW_FULL, fuller);
    offer_to("-0 to a full record", full, 0x80000000, DAMPMEADOW_FULL, fuller);
    offer_to("2^20 to a full record", full, 0x49800000, DAMPMEADOW_FULL, fuller);
    offer_to("the first above 2^20 to a full record", full, 0x49800001, DAMPMEADOW_OUTSIDE, fuller);
    offer_to("infinity to a full record", full, 0x7f800000, DAMPMEADOW_NOT_FINITE, fuller);
    offer_to("a NaN to a full record", full, nan, DAMPMEADOW_NOT_FINITE, fuller);
    offer_to("a count of 70000", record(70000, 2, half, quarter), one, DAMPMEADOW_FULL, record(70000, 3, half, quarter));

    /* the last offer that is counted, and the next; then records that no offers give */
    struct dampmeadow_grain last = record(1, end - 2, half, quarter);
    offer("the last offer, taken", &last, half, DAMPMEADOW_ANSWERED, record(2, end - 2, half, quarter));
    offer("one offer more", &last, half, DAMPMEADOW_WORN_OUT, record(2, end - 2, half, quarter));
    last = record(most, end - most - 1, half, quarter);
    offer("the last offer, to a full record", &last, half, DAMPMEADOW_FULL, record(most, end - most, half, quarter));
    offer("one more to a full record", &last, half, DAMPMEADOW_WORN_OUT, record(most, end - most, half, quarter));
    last = record(0, end - 1, 0, 0);
    offer("the last offer, a NaN", &last, nan, DAMPMEADOW_NOT_FINITE, record(0, end, 0, 0));
    offer("a sample to a record of refusals alone", &last, one, DAMPMEADOW_WORN_OUT, record(0, end, 0, 0));
    last = record(1, end - 2, half, quarter);
    offer("the last offer, above 2^20", &last, 0x49800001, DAMPMEADOW_OUTSIDE, record(1, end - 1, half, quarter));
    offer("another above 2^20", &last, 0x49800001, DAMPMEADOW_WORN_OUT, record(1, end - 1, half, quarter));
    const uint32_t any[5] = {0, half, 0x49800001, 0x7f800000, nan};
    const uint32_t worn[6][2] = {{0, end}, {1, end - 1}, {most, end - most}, {end, 0}, {1, end}, {end, end}};
    for (int i = 0; i < 6; i++) for (int j = 0; j < 5; j++) {
        const struct dampmeadow_grain counted = record(worn[i][0], worn[i][1], half, quarter);
        offer_to("any word to a record that is worn out", counted, any[j], DAMPMEADOW_WORN_OUT, counted);
    }
    offer_to("a count of one less than the offers", record(end - 1, 0, half, quarter), one, DAMPMEADOW_FULL,
             record(end - 1, 1, half, quarter));

    /* a mean that is infinite goes through the steps: -infinity is the deviation, and the rest is a NaN */
    struct dampmeadow_grain endless = record(1, 0, 0x7f800000, 0);
    hold("1 to an infinite mean", dampmeadow_grain_offer(&endless, one), DAMPMEADOW_ANSWERED);
    hold("the counts then", (uint64_t)endless.count << 32 | endless.refused, (uint64_t)2 << 32);
    hold("the mean is a NaN", (dampmeadow_bits(endless.mean) & 0x7fffffff) > 0x7f800000, 1);
    hold("the sum is a NaN", (dampmeadow_bits(endless.sum) & 0x7fffffff) > 0x7f800000, 1);

    const size_t all[4] = {3, 3, 3, 3}, two[4] = {2, 2, 2, 2}, none[4] = {0, 0, 0, 0};
    const uint32_t powers[3] = {(uint32_t)-1, (uint32_t)-1048577, 1};
    const uint64_t roots[3] = {0x40000000, 0x300000000, 0}, fewer[3] = {0x40000000, 0x300000000, UNTOUCHED};
    const uint64_t inverses[3] = {0x3e800000, 0xbf800000, 0x200000000};
    const uint64_t raised[3] = {0x3e800000, 0x500000000, 0x200000000}, bare[3] = {0x40000000, nan, 0x1fc00000};
    const uint32_t threes[3] = {0x40400000, 0x40400000, 0};
    const uint64_t left[3] = {0x3f800000, 0x40000000, 0x400000000};
    strip("a strip of sqrt", DAMPMEADOW_SQRT, NULL, all, DAMPMEADOW_ANSWERED, roots);
    strip("a strip of sqrt, beside a second list", DAMPMEADOW_SQRT, powers, all, DAMPMEADOW_ANSWERED, roots);
    strip("two places of a strip", DAMPMEADOW_SQRT, NULL, two, DAMPMEADOW_ANSWERED, fewer);
    strip("a strip of inv", DAMPMEADOW_INV, NULL, all, DAMPMEADOW_ANSWERED, inverses);
    strip("a strip of powi", DAMPMEADOW_POWI, powers, all, DAMPMEADOW_ANSWERED, raised);
    strip("a strip of raw sqrt", DAMPMEADOW_RAW + DAMPMEADOW_SQRT, powers, all, DAMPMEADOW_ANSWERED, bare);
    strip("a strip of rem_euclid", DAMPMEADOW_REM_EUCLID, threes, all, DAMPMEADOW_ANSWERED, left);
    strip("a strip of no places", DAMPMEADOW_SQRT, NULL, none, DAMPMEADOW_ANSWERED, NULL);
    strip("a strip of operation 1f", 0x1f, NULL, all, DAMPMEADOW_NO_SUCH_OPERATION, NULL);
    strip("a strip of operation 109", 0x109, NULL, all, DAMPMEADOW_NO_SUCH_OPERATION, NULL);
    strip("a strip of operation 1f and no places", 0x1f, NULL, none, DAMPMEADOW_NO_SUCH_OPERATION, NULL);
    for (int list = 0; list < 4; list++) for (size_t places = 1; places <= 3; places += 2) {
        size_t lent[4] = {2, 2, 2, 2};
        lent[list] = places;
        strip("a strip with one list of another length", DAMPMEADOW_SQRT, NULL, lent, DAMPMEADOW_LENGTHS, NULL);
        strip("the same of operation 1f", 0x1f, NULL, lent, DAMPMEADOW_LENGTHS, NULL);
    }

    line("094080000000000000", 16, DAMPMEADOW_ANSWERED, "0040000000\n");
    line("898000000000000000", 11, DAMPMEADOW_ANSWERED, "005fc00000\n");
    line("09bf80000000000000", 11, DAMPMEADOW_NEGATIVE, "0300000000\n");
    line("0bfe80000000000000", 16, DAMPMEADOW_ANSWERED, "0080800000\n");
    line("0bfe80000100000000", 16, DAMPMEADOW_OUTSIDE, "0400000000\n");
    line("19c0e0000040400000", 16, DAMPMEADOW_ANSWERED, "0040000000\n");
    line("1f0000000000000000", 16, DAMPMEADOW_NO_SUCH_OPERATION, "0600000000\n");
    line("", 11, DAMPMEADOW_MALFORMED, "0700000000\n");
    line("094080000000000000", 10, DAMPMEADOW_NO_ROOM, "");

    order();
    recipes();
    doubles();
    columns();
    second_engine();

    hold("the refusal of an answer", dampmeadow_refusal_of(0x300000000), DAMPMEADOW_NEGATIVE);
    hold("the mark of an answer", dampmeadow_mark_of(0x1bf800000), DAMPMEADOW_DROPPED);
    hold("the word of an answer", dampmeadow_word_of(0x340000000), 0x40000000);

    printf("C: %d tried, %d wrong\n", tried, wrong);
    return wrong != 0;
}
