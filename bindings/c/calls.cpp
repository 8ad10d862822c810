// The headers from C++: guarded calls as values or refusals, and the second engine's words, each beside the answer that is due.
// Says which are wrong and exits with 1 if any is.
#include "dampmeadow_soft.h" // the first, so that it has to stand by itself
#include "dampmeadow.h"
#include <cstdio>
#include <string>
#include <vector>

namespace {

int tried = 0, wrong = 0;

struct Answer {
    uint32_t refusal;
    float number;
    bool operator==(const Answer &other) const { return refusal == other.refusal && number == other.number; }
};

Answer answer(uint64_t packed) { return {dampmeadow_refusal_of(packed), dampmeadow_float(dampmeadow_word_of(packed))}; }

Answer call(uint32_t op, float x) { return answer(dampmeadow_words(op, dampmeadow_bits(x), 0)); }

Answer call(uint32_t op, float x, float y) { return answer(dampmeadow_words(op, dampmeadow_bits(x), dampmeadow_bits(y))); }

void hold(const char *what, Answer got, Answer due)
{
    tried++;
    if (got == due) return;
    wrong++;
    std::printf("%s: refusal %u, %.9g, and refusal %u, %.9g is due\n", what, unsigned(got.refusal), double(got.number), unsigned(due.refusal), double(due.number));
}

void parts(const char *what, float x, uint32_t refusal, float whole, float rest)
{
    uint32_t w = 1, r = 2;
    const uint32_t got = dampmeadow_parts(dampmeadow_bits(x), &w, &r);
    hold(what, {got, dampmeadow_float(w)}, {refusal, whole});
    hold(what, {got, dampmeadow_float(r)}, {refusal, rest});
}

void products(const char *what, float x, int32_t n, uint32_t due)
{
    tried++;
    const uint32_t got = dampmeadow_powi_products(dampmeadow_bits(x), n);
    if (got == due) return;
    wrong++;
    std::printf("%s: %u, and %u is due\n", what, unsigned(got), unsigned(due));
}

// An answer with what stands above it, a mark or a refusal. The words are compared, since a zero's sign is part of it and a NaN
// equals nothing.
void exactly(const char *what, const char *above, uint32_t got, uint32_t word, uint32_t due, float number)
{
    tried++;
    if (got == due && word == dampmeadow_bits(number)) return;
    wrong++;
    std::printf("%s: %s %u, %.9g, and %s %u, %.9g is due\n", what, above, unsigned(got), double(dampmeadow_float(word)), above, unsigned(due), double(number));
}

void marked(const char *what, uint64_t packed, uint32_t mark, float number)
{
    exactly(what, "mark", dampmeadow_mark_of(packed), dampmeadow_word_of(packed), mark, number);
}

void floors(const char *what, float x, uint32_t mark, float number) { marked(what, dampmeadow_floor_marked(dampmeadow_bits(x)), mark, number); }

void ceils(const char *what, float x, uint32_t mark, float number) { marked(what, dampmeadow_ceil_marked(dampmeadow_bits(x)), mark, number); }

// A recipe of any bytes. Where none of them is 0, the helper has to give the same.
void recipe(const std::string &text, float x, uint32_t refusal, float number)
{
    const uint8_t *bytes = reinterpret_cast<const uint8_t *>(text.data());
    std::vector<uint64_t> answers = {dampmeadow_recipe(bytes, text.size(), dampmeadow_bits(x))};
    if (text.find('\0') == std::string::npos) answers.push_back(dampmeadow_recipe_at(text.c_str(), x));
    for (const uint64_t packed : answers) exactly(text.c_str(), "refusal", dampmeadow_refusal_of(packed), dampmeadow_word_of(packed), refusal, number);
}

std::string repeated(const std::string &part, int times)
{
    std::string all;
    while (times-- > 0) all += part;
    return all;
}

std::string nested(const std::string &open, int deep) { return repeated(open, deep) + "x" + repeated(")", deep); }

static_assert(sizeof(dampmeadow_grain) == 16 && alignof(dampmeadow_grain) == 4, "a record of grain has 16 bytes");
static_assert(offsetof(dampmeadow_grain, count) == 0 && offsetof(dampmeadow_grain, refused) == 4, "the counts are first");
static_assert(offsetof(dampmeadow_grain, mean) == 8 && offsetof(dampmeadow_grain, sum) == 12, "the floats follow");

// Samples offered to a record one by one, each with the refusal that is due, and then the record. The words of mean and sum are
// compared, since a zero's sign is part of them.
struct Offer {
    float sample;
    uint32_t refusal;
};

void offers(const char *what, dampmeadow_grain grain, const std::vector<Offer> &list, const dampmeadow_grain &due)
{
    for (const Offer &one : list) {
        tried++;
        const uint32_t got = dampmeadow_grain_offer(&grain, dampmeadow_bits(one.sample));
        if (got == one.refusal) continue;
        wrong++;
        std::printf("%s, %.9g: refusal %u, and %u is due\n", what, double(one.sample), unsigned(got), unsigned(one.refusal));
    }
    tried++;
    const bool counts = grain.count == due.count && grain.refused == due.refused;
    const bool mean = dampmeadow_bits(grain.mean) == dampmeadow_bits(due.mean);
    if (counts && mean && dampmeadow_bits(grain.sum) == dampmeadow_bits(due.sum)) return;
    wrong++;
    std::printf("%s: %u taken, %u refused, mean %.9g, sum %.9g, and %u, %u, %.9g, %.9g is due\n", what, unsigned(grain.count),
                unsigned(grain.refused), double(grain.mean), double(grain.sum), unsigned(due.count), unsigned(due.refused),
                double(due.mean), double(due.sum));
}

// A kernel on doubles, into a place that holds another word before. The words are compared, as above.
void doubled(const char *what, uint32_t op, double x, uint32_t refusal, double number)
{
    tried++;
    uint64_t value = 99;
    const uint32_t got = dampmeadow_double(op, dampmeadow_double_bits(x), &value);
    if (got == refusal && value == dampmeadow_double_bits(number)) return;
    wrong++;
    std::printf("%s: refusal %u, %.17g, and refusal %u, %.17g is due\n", what, unsigned(got), dampmeadow_double_of(value), unsigned(refusal), number);
}

// Columns of a scanned row or of a retouched one: which row is told, and then the part, which has to be in that row's memory.
void shows(const char *what, const std::vector<int> &scan, const std::vector<int> &retouch, bool retouched, std::size_t from, std::size_t to, bool of_retouch, std::vector<int> due)
{
    tried++;
    std::size_t first = 99, last = 99;
    const bool told = dampmeadow_columns(scan.size(), retouch.size(), retouched, from, to, &first, &last);
    const std::vector<int> &row = told ? retouch : scan;
    const bool within = first <= last && last <= row.size();
    if (told == of_retouch && within && std::vector<int>(row.data() + first, row.data() + last) == due) return;
    wrong++;
    std::printf("%s: %u to %u of the %s row\n", what, unsigned(first), unsigned(last), told ? "retouched" : "scanned");
}

// The words of some floats, and one word more, which is not lent: an empty vector may have NULL for its data.
std::vector<uint32_t> words(const std::vector<float> &numbers)
{
    std::vector<uint32_t> list;
    for (const float number : numbers) list.push_back(dampmeadow_bits(number));
    list.push_back(dampmeadow_bits(-9.0f));
    return list;
}

// A strip into lists of as many places as are due. They hold refusal 99 and -9 before, and so does the place after the last.
void strip(const char *what, uint32_t op, const std::vector<float> &x, const std::vector<float> &y, uint32_t refusal, std::vector<Answer> due)
{
    const std::vector<uint32_t> first = words(x), second = words(y);
    const std::size_t places = due.size();
    due.push_back({99, -9.0f});
    std::vector<uint32_t> answers(due.size(), dampmeadow_bits(-9.0f)), refusals(due.size(), 99);
    const uint32_t got = dampmeadow_strip(op, first.data(), x.size(), second.data(), y.size(), answers.data(), places, refusals.data(), places);
    hold(what, {got, 0.0f}, {refusal, 0.0f});
    for (std::size_t i = 0; i < due.size(); i++) hold(what, {refusals[i], dampmeadow_float(answers[i])}, due[i]);
}

void line(const std::string &text, const std::string &due)
{
    tried++;
    uint8_t space[DAMPMEADOW_ANSWER_LENGTH];
    dampmeadow_answer(reinterpret_cast<const uint8_t *>(text.data()), text.size(), space, sizeof space);
    std::string got(reinterpret_cast<const char *>(space), sizeof space);
    if (got == due + "\n") return;
    wrong++;
    std::printf("the answer to '%s' is %s and %s is due\n", text.c_str(), got.c_str(), due.c_str());
}

// An operation of the second engine, by its sign, with its operands and the word that is due.
struct Row {
    uint32_t a;
    char sign;
    uint32_t b, due;

    uint32_t soft() const
    {
        switch (sign) {
        case '+': return dampmeadow_soft_add(a, b);
        case '-': return dampmeadow_soft_sub(a, b);
        case '*': return dampmeadow_soft_mul(a, b);
        default: return dampmeadow_soft_div(a, b);
        }
    }
};

const Row operations[] = {
    // exact, ties to the even word, and a little to one side of a tie
    {0x3f800000, '+', 0x40000000, 0x40400000}, {0x3f800000, '+', 0x33800000, 0x3f800000},
    {0x3f800001, '+', 0x33800000, 0x3f800002}, {0x3f800000, '+', 0x33800001, 0x3f800001},
    {0x40000000, '-', 0x3f800000, 0x3f800000}, {0x3f800000, '-', 0x33000000, 0x3f800000},
    {0x3f800001, '-', 0x3f800000, 0x34000000}, {0x3f800000, '-', 0x33000001, 0x3f7fffff},
    {0x40000000, '*', 0xc0400000, 0xc0c00000}, {0x3f800001, '*', 0x3fc00000, 0x3fc00002},
    {0x3f800003, '*', 0x3fc00000, 0x3fc00004}, {0x3f800000, '/', 0x40400000, 0x3eaaaaab},
    {0x3f800000, '/', 0x3fffffff, 0x3f000001}, {0x3faaaaaa, '/', 0xbfaaaaab, 0xbf7fffff},
    // too large
    {0x7f7fffff, '+', 0x73000000, 0x7f800000}, {0x7f7fffff, '+', 0x72ffffff, 0x7f7fffff},
    {0xff7fffff, '-', 0x73000000, 0xff800000}, {0x5f800000, '*', 0xdf800000, 0xff800000},
    {0x7f7fffff, '/', 0x3f7fffff, 0x7f800000}, {0x7f7ffffe, '/', 0x3f7fffff, 0x7f7fffff},
    // too small to be normal
    {0x00800000, '-', 0x00000001, 0x007fffff}, {0x00000001, '+', 0x00000001, 0x00000002},
    {0x00000001, '*', 0x3f000000, 0x00000000}, {0x80000001, '*', 0x3f000000, 0x80000000},
    {0x00000003, '*', 0x3f000000, 0x00000002}, {0x20000000, '*', 0x1f800000, 0x00400000},
    {0x1ac00003, '*', 0x19fffffc, 0x00000001}, {0x80000001, '*', 0x00000001, 0x80000000},
    {0x00000001, '*', 0x7f7fffff, 0x34ffffff}, {0x00800000, '*', 0x3f7fffff, 0x00800000},
    {0x00000001, '/', 0x3f000001, 0x00000002}, {0x00000001, '/', 0x3fffffff, 0x00000001},
    {0x00000003, '/', 0x40000000, 0x00000002}, {0x00000001, '/', 0x7f7fffff, 0x00000000},
    {0x00000001, '/', 0x00ffffff, 0x33800001}, {0x00800000, '/', 0x80000001, 0xcb000000},
    // zeros
    {0x80000000, '+', 0x80000000, 0x80000000}, {0x00000000, '+', 0x80000000, 0x00000000},
    {0xbf800000, '+', 0x3f800000, 0x00000000}, {0xc0200000, '-', 0xc0200000, 0x00000000},
    {0x80000000, '-', 0x80000000, 0x00000000}, {0x80000000, '-', 0x00000000, 0x80000000},
    {0x00000000, '*', 0xbf800000, 0x80000000}, {0x00000000, '/', 0xbf800000, 0x80000000},
    {0x3f800000, '/', 0x80000000, 0xff800000}, {0x00000000, '/', 0x00000000, 0x7fc00000},
    // infinities and NaN
    {0x7f800000, '+', 0x7f800000, 0x7f800000}, {0x7f800000, '+', 0xff800000, 0x7fc00000},
    {0xff800000, '+', 0x7f7fffff, 0xff800000}, {0x7f800000, '-', 0x7f800000, 0x7fc00000},
    {0x3f800000, '-', 0x7f800000, 0xff800000}, {0xff800000, '*', 0x00000001, 0xff800000},
    {0x00000000, '*', 0x7f800000, 0x7fc00000}, {0xff800000, '*', 0x00000000, 0x7fc00000},
    {0x7f800000, '/', 0xff800000, 0x7fc00000}, {0x7f800000, '/', 0x80000000, 0xff800000},
    {0xff7fffff, '/', 0x7f800000, 0x80000000}, {0x7f800001, '+', 0x3f800000, 0x7fc00000},
    {0x7f800000, '-', 0xffc00000, 0x7fc00000}, {0xffffffff, '*', 0x00000000, 0x7fc00000},
    {0x3f800000, '/', 0xff800001, 0x7fc00000},
};

void word(const char *what, uint32_t a, uint32_t got, uint64_t due)
{
    tried++;
    if (got == due) return;
    if (wrong++ >= 100) return; // the first hundred say enough
    std::printf("soft %s, first %08x: %08x, and %08llx is due\n", what, unsigned(a), unsigned(got), static_cast<unsigned long long>(due));
}

// The kernels beside the library's raw ones, over words of either sign that are evenly spread.
void second_engine()
{
    for (const Row &row : operations) word(std::string(1, row.sign).c_str(), row.a, row.soft(), row.due);
    word("cos", 0x3f800000, dampmeadow_soft_cos(0x3f800000), 0x3f0a5d25);
    word("sin", 0x3f800000, dampmeadow_soft_sin(0x3f800000), 0x3f57984f);
    word("atan_norm", 0x3f800000, dampmeadow_soft_atan_norm(0x3f800000), 0x3f000000);
    word("atan", 0x3f000000, dampmeadow_soft_atan(0x3f000000), 0x3eeec47c);
    for (uint32_t i = 0; i < 4000; i++) {
        const uint32_t a = i * 1073741;
        word("cos", a, dampmeadow_soft_cos(a), dampmeadow_words(DAMPMEADOW_RAW + DAMPMEADOW_COS, a, 0));
        word("sin", a, dampmeadow_soft_sin(a), dampmeadow_words(DAMPMEADOW_RAW + DAMPMEADOW_SIN, a, 0));
        word("atan_norm", a, dampmeadow_soft_atan_norm(a), dampmeadow_atan_norm(a));
        word("atan", a, dampmeadow_soft_atan(a), dampmeadow_words(DAMPMEADOW_RAW + DAMPMEADOW_ATAN, a, 0));
    }
}

}

int main()
{
    hold("sqrt 4", call(DAMPMEADOW_SQRT, 4.0f), {DAMPMEADOW_ANSWERED, 2.0f});
    hold("sqrt -1", call(DAMPMEADOW_SQRT, -1.0f), {DAMPMEADOW_NEGATIVE, 0.0f});
    hold("inv -1", call(DAMPMEADOW_INV, -1.0f), {DAMPMEADOW_ANSWERED, -1.0f});
    hold("inv -2^126", call(DAMPMEADOW_INV, dampmeadow_float(0xfe800000)), {DAMPMEADOW_ANSWERED, dampmeadow_float(0x80800000)});
    hold("inv -2^-126", call(DAMPMEADOW_INV, dampmeadow_float(0x80800000)), {DAMPMEADOW_ANSWERED, dampmeadow_float(0xfe800000)});
    hold("inv, the first below -2^126", call(DAMPMEADOW_INV, dampmeadow_float(0xfe800001)), {DAMPMEADOW_OUTSIDE, 0.0f});
    const float beyond = dampmeadow_float(0x43800001); // the first above 256
    hold("cos 256", call(DAMPMEADOW_COS, 256.0f), {DAMPMEADOW_ANSWERED, -0.0393502489f});
    hold("cos, the first above 256", call(DAMPMEADOW_COS, beyond), {DAMPMEADOW_OUTSIDE, 0.0f});
    hold("sin -256", call(DAMPMEADOW_SIN, -256.0f), {DAMPMEADOW_ANSWERED, 0.999213219f});
    hold("sin, the first below -256", call(DAMPMEADOW_SIN, -beyond), {DAMPMEADOW_OUTSIDE, 0.0f});
    hold("tan 256", call(DAMPMEADOW_TAN, 256.0f), {DAMPMEADOW_ANSWERED, 25.3928051f});
    hold("tan, the first above 256", call(DAMPMEADOW_TAN, beyond), {DAMPMEADOW_OUTSIDE, 0.0f});
    hold("hypot 3 4", call(DAMPMEADOW_HYPOT, 3.0f, 4.0f), {DAMPMEADOW_ANSWERED, 5.125f});
    hold("hypot 0 0", call(DAMPMEADOW_HYPOT, 0.0f, 0.0f), {DAMPMEADOW_OUTSIDE, 0.0f});
    const float most = dampmeadow_float(0x5e800000), past = dampmeadow_float(0x5e800001); // 2^62 and the first above it
    hold("hypot 2^62 0", call(DAMPMEADOW_HYPOT, most, 0.0f), {DAMPMEADOW_ANSWERED, most});
    hold("hypot, the first above 2^62 and 0", call(DAMPMEADOW_HYPOT, past, 0.0f), {DAMPMEADOW_OUTSIDE, 0.0f});
    hold("atan2 2^62 0", call(DAMPMEADOW_ATAN2, most, 0.0f), {DAMPMEADOW_ANSWERED, 1.57079637f});
    hold("atan2, the first above 2^62 and 0", call(DAMPMEADOW_ATAN2, past, 0.0f), {DAMPMEADOW_OUTSIDE, 0.0f});
    hold("atan2 1 0", call(DAMPMEADOW_ATAN2, 1.0f, 0.0f), {DAMPMEADOW_ANSWERED, 1.57079637f});
    hold("asin 1", call(DAMPMEADOW_ASIN, 1.0f), {DAMPMEADOW_OUTSIDE, 0.0f});
    hold("acos 0", call(DAMPMEADOW_ACOS, 0.0f), {DAMPMEADOW_ANSWERED, 1.57079637f});
    hold("tan 1", call(DAMPMEADOW_TAN, 1.0f), {DAMPMEADOW_ANSWERED, 1.55817401f});
    hold("rem_euclid -7 3", call(DAMPMEADOW_REM_EUCLID, -7.0f, 3.0f), {DAMPMEADOW_ANSWERED, 2.0f});
    hold("div_euclid -7 3", call(DAMPMEADOW_DIV_EUCLID, -7.0f, 3.0f), {DAMPMEADOW_ANSWERED, -3.0f});
    hold("div_euclid -7 0", call(DAMPMEADOW_DIV_EUCLID, -7.0f, 0.0f), {DAMPMEADOW_OUTSIDE, 0.0f});
    hold("powi 2 -1", answer(dampmeadow_words(DAMPMEADOW_POWI, dampmeadow_bits(2.0f), uint32_t(-1))), {DAMPMEADOW_ANSWERED, 0.5f});
    hold("raw inv -1", call(DAMPMEADOW_RAW + DAMPMEADOW_INV, -1.0f), {DAMPMEADOW_ANSWERED, -1.0f});
    hold("atan_norm 1, guarded", answer(dampmeadow_atan_norm_guarded(0x3f800000)), {DAMPMEADOW_ANSWERED, 0.5f});
    hold("atan_norm 1", {0, dampmeadow_float(dampmeadow_atan_norm(0x3f800000))}, {0, 0.5f});
    parts("the parts of -2.5", -2.5f, DAMPMEADOW_ANSWERED, -2.0f, -0.5f);
    parts("the parts of 1e10", 1e10f, DAMPMEADOW_OUTSIDE, 0.0f, 0.0f);
    products("products of 3 to 3", 3.0f, 3, 3);
    products("products of 3 to -3", 3.0f, -3, 3);
    products("products of 3 to 128", 3.0f, 128, 0);
    products("products of 1 to -1048575", 1.0f, -1048575, 39);
    products("products of 1 to 1048577", 1.0f, 1048577, 0);
    products("products of -0 to 3", -0.0f, 3, 0);
    const float end = 2147483648.0f; // 2^31
    floors("floor -0.5, marked", -0.5f, DAMPMEADOW_DROPPED, -1.0f);
    ceils("ceil -0.5, marked", -0.5f, DAMPMEADOW_DROPPED, -0.0f);
    floors("floor -0, marked", -0.0f, DAMPMEADOW_EXACT, 0.0f);
    floors("floor 2^31, marked", end, DAMPMEADOW_CLIPPED_HIGH, end);
    ceils("ceil 2^31, marked", end, DAMPMEADOW_EXACT, end);
    floors("floor -2^31, marked", -end, DAMPMEADOW_EXACT, -end);
    ceils("ceil -2^31, marked", -end, DAMPMEADOW_CLIPPED_HIGH, -end);
    floors("floor -3e9, marked", -3e9f, DAMPMEADOW_CLIPPED_LOW, -end);
    ceils("ceil 3e9, marked", 3e9f, DAMPMEADOW_CLIPPED_LOW, end);
    floors("floor of a NaN, marked", dampmeadow_float(0x7fc00000), DAMPMEADOW_NOT_A_NUMBER, 0.0f);
    ceils("ceil of a NaN, marked", dampmeadow_float(0x7fc00000), DAMPMEADOW_NOT_A_NUMBER, -0.0f);
    const std::vector<float> film = {4.0f, -1.0f, 0.0f}, slopes = {1.5f, -1.5f, -0.0f, -1e-40f, -1e38f};
    strip("a strip of sqrt", DAMPMEADOW_SQRT, film, film, DAMPMEADOW_ANSWERED, {{0, 2.0f}, {DAMPMEADOW_NEGATIVE, 0.0f}, {0, 0.0f}});
    strip("a strip of ln", DAMPMEADOW_LN, {0.0f, 1e-40f, -1e-40f}, film, DAMPMEADOW_ANSWERED, {{DAMPMEADOW_ZERO, 0.0f}, {DAMPMEADOW_SMALL, 0.0f}, {DAMPMEADOW_SMALL, 0.0f}});
    strip("a strip of inv", DAMPMEADOW_INV, slopes, slopes, DAMPMEADOW_ANSWERED, {{0, 0.75f}, {0, -0.75f}, {DAMPMEADOW_ZERO, 0.0f}, {DAMPMEADOW_SMALL, 0.0f}, {DAMPMEADOW_OUTSIDE, 0.0f}});
    strip("a strip of hypot", DAMPMEADOW_HYPOT, {3.0f, 0.0f}, {4.0f, 0.0f}, DAMPMEADOW_ANSWERED, {{0, 5.125f}, {DAMPMEADOW_OUTSIDE, 0.0f}});
    strip("a strip of div_euclid", DAMPMEADOW_DIV_EUCLID, {7.0f, -7.0f, 7.0f}, {3.0f, 3.0f, 0.0f}, DAMPMEADOW_ANSWERED, {{0, 2.0f}, {0, -3.0f}, {DAMPMEADOW_OUTSIDE, 0.0f}});
    strip("a strip of no places", DAMPMEADOW_HYPOT, {}, {}, DAMPMEADOW_ANSWERED, {});
    strip("a strip with a short second list", DAMPMEADOW_SQRT, {4.0f}, {}, DAMPMEADOW_LENGTHS, {{99, -9.0f}});
    strip("a strip of operation 1f", 0x1f, {4.0f}, {4.0f}, DAMPMEADOW_NO_SUCH_OPERATION, {{99, -9.0f}});
    strip("a strip of operation 1f and no places", 0x1f, {}, {}, DAMPMEADOW_NO_SUCH_OPERATION, {});
    const dampmeadow_grain fresh = {0, 0, 0.0f, 0.0f};
    const uint32_t taken = DAMPMEADOW_ANSWERED, not_finite = DAMPMEADOW_NOT_FINITE, outside = DAMPMEADOW_OUTSIDE;
    const uint32_t full = DAMPMEADOW_FULL, worn = DAMPMEADOW_WORN_OUT, last = 4294967295;
    const float nan = dampmeadow_float(0x7fc00000), infinite = dampmeadow_float(0x7f800000);
    const float large = 1048576.0f, above = dampmeadow_float(0x49800001); // 2^20 and the first above it
    offers("no offers", dampmeadow_grain(), {}, fresh);
    offers("1, 2, 3, 4", fresh, {{1.0f, taken}, {2.0f, taken}, {3.0f, taken}, {4.0f, taken}}, {4, 0, 2.5f, 5.0f});
    offers("2, 4, a NaN and the first above 2^20", fresh, {{2.0f, taken}, {4.0f, taken}, {nan, not_finite}, {above, outside}},
           {2, 2, 3.0f, 2.0f});
    offers("0.5, 0.8, 0.2, 0.9", fresh, {{0.5f, taken}, {0.8f, taken}, {0.2f, taken}, {0.9f, taken}},
           {4, 0, dampmeadow_float(0x3f19999a), dampmeadow_float(0x3e99999a)});
    offers("0.1 thrice and 0.6", fresh, {{0.1f, taken}, {0.1f, taken}, {0.1f, taken}, {0.6f, taken}},
           {4, 0, dampmeadow_float(0x3e666666), dampmeadow_float(0x3e400001)});
    offers("2^20, a NaN, the first below -2^20, -2^20", fresh,
           {{large, taken}, {nan, not_finite}, {-above, outside}, {-large, taken}}, {2, 2, 0.0f, dampmeadow_float(0x54000000)});
    offers("-0", fresh, {{-0.0f, taken}}, {1, 0, 0.0f, 0.0f});
    offers("-0 twice", fresh, {{-0.0f, taken}, {-0.0f, taken}}, {2, 0, 0.0f, 0.0f});
    const float smallest = dampmeadow_float(0x00000001);
    offers("the smallest, once with each sign, and thrice it", fresh,
           {{smallest, taken}, {-smallest, taken}, {3 * smallest, taken}}, {3, 0, smallest, 0.0f});
    offers("infinity, -infinity, the largest, the lowest", fresh,
           {{infinite, not_finite}, {-infinite, not_finite}, {3.40282347e38f, outside}, {-3.40282347e38f, outside}},
           {0, 4, 0.0f, 0.0f});
    offers("the last sample, and then none", {65535, 0, 0.5f, 0.25f},
           {{1.0f, taken}, {1.0f, full}, {-0.0f, full}, {above, outside}, {infinite, not_finite}, {nan, not_finite}},
           {65536, 5, dampmeadow_float(0x3f000080), dampmeadow_float(0x3effff80)});
    offers("a count of 70000", {70000, 2, 0.5f, 0.25f}, {{1.0f, full}}, {70000, 3, 0.5f, 0.25f});
    const std::vector<Offer> none = {{1.0f, worn}, {nan, worn}, {infinite, worn}, {above, worn}};
    offers("the last offer, taken, and then none", {0, last - 1, 0.0f, 0.0f}, {{1.0f, taken}, {1.0f, worn}, {nan, worn}},
           {1, last - 1, 1.0f, 0.0f});
    offers("the last offer, to a full record, and then none", {65536, last - 65537, 0.5f, 0.25f}, {{1.0f, full}, {1.0f, worn}},
           {65536, last - 65536, 0.5f, 0.25f});
    offers("a record that is worn out", {65536, last - 65536, 0.5f, 0.25f}, none, {65536, last - 65536, 0.5f, 0.25f});
    offers("a record with more than all the offers", {1, last, 0.5f, 0.25f}, none, {1, last, 0.5f, 0.25f});
    const double tiny = dampmeadow_double_of(0x000fffffffffffff), least = dampmeadow_double_of(0x0010000000000000); // about 2^-1022
    const double largest = dampmeadow_double_of(0x7fd0000000000000), larger = dampmeadow_double_of(0x7fd0000000000001); // 2^1022
    const double below = dampmeadow_double_of(0x43efffffffffffff), wide = dampmeadow_double_of(0x43f0000000000000); // about 2^64
    doubled("trunc -2.5, a double", DAMPMEADOW_TRUNC, -2.5, DAMPMEADOW_ANSWERED, -2.0);
    doubled("trunc -0.5, a double", DAMPMEADOW_TRUNC, -0.5, DAMPMEADOW_ANSWERED, -0.0);
    doubled("trunc, the last double below 2^64", DAMPMEADOW_TRUNC, below, DAMPMEADOW_ANSWERED, below);
    doubled("trunc -2^64, a double", DAMPMEADOW_TRUNC, -wide, DAMPMEADOW_OUTSIDE, 0.0);
    doubled("fract -2.5, a double", DAMPMEADOW_FRACT, -2.5, DAMPMEADOW_ANSWERED, -0.5);
    doubled("fract, a small double", DAMPMEADOW_FRACT, tiny, DAMPMEADOW_ANSWERED, tiny);
    doubled("fract 2^64, a double", DAMPMEADOW_FRACT, wide, DAMPMEADOW_OUTSIDE, 0.0);
    doubled("sqrt 4, a double", DAMPMEADOW_SQRT, 4.0, DAMPMEADOW_ANSWERED, 2.0);
    doubled("sqrt -0, a double", DAMPMEADOW_SQRT, -0.0, DAMPMEADOW_ANSWERED, -0.0);
    doubled("sqrt, a small double below 0", DAMPMEADOW_SQRT, -tiny, DAMPMEADOW_SMALL, 0.0);
    doubled("sqrt -2^-1022, a double", DAMPMEADOW_SQRT, -least, DAMPMEADOW_NEGATIVE, 0.0);
    doubled("inv -1.5, a double", DAMPMEADOW_INV, -1.5, DAMPMEADOW_ANSWERED, -0.75);
    doubled("inv 2^-1022, a double", DAMPMEADOW_INV, least, DAMPMEADOW_ANSWERED, largest);
    doubled("inv -2^1022, a double", DAMPMEADOW_INV, -largest, DAMPMEADOW_ANSWERED, -least);
    doubled("inv, the first double above 2^1022", DAMPMEADOW_INV, larger, DAMPMEADOW_OUTSIDE, 0.0);
    doubled("inv, a small double", DAMPMEADOW_INV, tiny, DAMPMEADOW_SMALL, 0.0);
    doubled("inv -0, a double", DAMPMEADOW_INV, -0.0, DAMPMEADOW_ZERO, 0.0);
    doubled("inv of an infinite double", DAMPMEADOW_INV, dampmeadow_double_of(0x7ff0000000000000), DAMPMEADOW_NOT_FINITE, 0.0);
    doubled("raw inv, the first double above 2^1022", DAMPMEADOW_RAW + DAMPMEADOW_INV, larger, DAMPMEADOW_ANSWERED, tiny);
    doubled("floor of a double", DAMPMEADOW_FLOOR, 2.5, DAMPMEADOW_NO_SUCH_OPERATION, 0.0);
    const std::vector<int> scan = {10, 11, 12, 13}, retouch = {20, 21, 22};
    shows("columns 1 to 3 of the scanned row", scan, retouch, false, 1, 3, false, {11, 12});
    shows("columns 1 to 3 of the retouched row", scan, retouch, true, 1, 3, true, {21, 22});
    shows("the whole of the scanned row", scan, retouch, false, 0, 4, false, {10, 11, 12, 13});
    shows("no columns of the retouched row, at its end", scan, retouch, true, 3, 3, true, {});
    shows("columns past the end of the retouched row", scan, retouch, true, 1, 4, false, {});
    shows("columns out of order", scan, retouch, true, 3, 1, false, {});
    line("094080000000000000", "0040000000");
    line("a frame is eighteen digits", "0700000000");
    recipe("3f800000+sqrt(x)*x", 4.0f, 0, 9.0f);
    recipe("sqrt(sqrt(41800000))*x", 3.0f, 0, 6.0f);
    recipe("x-x-x", 1.0f, 0, -1.0f);
    recipe("x/x*x", 2.0f, 0, 2.0f);
    recipe("80000000-x", 0.0f, 0, -0.0f);
    recipe("sqrt(x)", -0.0f, 0, -0.0f);
    recipe("invsqrt(x)", 1.0f, 0, 0.966225028f);
    recipe("inv(x)", -1.5f, 0, -0.75f);
    recipe("recip(x)", 4.0f, 0, 0.250000119f);
    recipe("recip(x)", smallest, DAMPMEADOW_SMALL, 0.0f);
    recipe("exp(x)", 0.5f, 0, 1.6484375f);
    recipe("ln(x)", 0.75f, 0, -0.405448198f);
    recipe("atan(x)", 0.5f, 0, 0.466342807f);
    recipe("cos(x)", 256.0f, 0, -0.0393502489f);
    recipe("cos(x)", beyond, DAMPMEADOW_OUTSIDE, 0.0f);
    recipe("sin(x)", -256.0f, 0, 0.999213219f);
    recipe("floor(x)", -0.5f, 0, -1.0f);
    recipe("x", nan, 0, nan);
    recipe("ffc00001", 1.0f, 0, nan);
    recipe("x", -infinite, 0, -infinite);
    recipe("3f800000/x", 0.0f, 0, infinite);
    recipe("x/x", 0.0f, 0, nan);
    recipe("sqrt(3f800000/x)", 0.0f, DAMPMEADOW_NOT_FINITE, 0.0f);
    recipe("ln(x)+sqrt(bf800000)", 0.0f, DAMPMEADOW_ZERO, 0.0f);
    recipe("sqrt(bf800000)*ln(x)", 0.0f, DAMPMEADOW_NEGATIVE, 0.0f);
    recipe("x" + repeated("+x", 119), 1.0f, 0, 120.0f); // 239 bytes
    recipe("00000000" + repeated("+x", 116), 1.0f, 0, 116.0f);
    recipe("x" + repeated("+x", 120), 1.0f, DAMPMEADOW_TOO_LONG, 0.0f);
    recipe(repeated("(", 240), 1.0f, DAMPMEADOW_TOO_DEEP, 0.0f);
    recipe(repeated("(", 241), 1.0f, DAMPMEADOW_TOO_LONG, 0.0f);
    recipe(nested("(", 16), 2.5f, 0, 2.5f);
    recipe(nested("(", 17), 2.5f, DAMPMEADOW_TOO_DEEP, 0.0f);
    recipe(nested("floor(", 16), 2.5f, 0, 2.0f);
    recipe(nested("floor(", 17), 2.5f, DAMPMEADOW_TOO_DEEP, 0.0f);
    recipe(")" + repeated("(", 17), 1.0f, DAMPMEADOW_NOT_A_RECIPE, 0.0f);
    recipe(")" + repeated("(", 18), 1.0f, DAMPMEADOW_TOO_DEEP, 0.0f);
    for (const char *other : {"", "sqrt(bf800000)+", "3f80000", "3f8000000", "3F800000", "X", " x", "x\n", "x\r", "\x80", "\xf8", "+x", "-x", "(x", "()",
                              "x(x)", "sqrtx", "sqrt (x)", "tan(x)", "abs(x)"})
        recipe(other, 1.0f, DAMPMEADOW_NOT_A_RECIPE, 0.0f);
    recipe(std::string(1, '\0'), 1.0f, DAMPMEADOW_NOT_A_RECIPE, 0.0f);
    recipe(std::string("x\0", 2), 1.0f, DAMPMEADOW_NOT_A_RECIPE, 0.0f);
    second_engine();

    std::printf("C++: %d tried, %d wrong\n", tried, wrong);
    return wrong != 0;
}
