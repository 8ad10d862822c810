/* The recipes of the test in C, which calls.c runs: known ones, both sides of each limit, what is no recipe, and every byte. */
#include "dampmeadow.h"
#include "hold.h"

/* A recipe that is a string, by the call and by the helper. */
static void recipe(const char *text, uint32_t x, uint32_t refusal, uint32_t word)
{
    const uint64_t due = (uint64_t)refusal << 32 | word;
    hold(text, dampmeadow_recipe((const uint8_t *)text, strlen(text), x), due);
    hold(text, dampmeadow_recipe_at(text, dampmeadow_float(x)), due);
}

/* Recipes, each with the word for x, the refusal and the word of the value. */
static const struct {
    const char *line;
    uint32_t x, refusal, word;
} known[] = {
    {"3f800000+sqrt(x)*x", 0x40800000, 0, 0x41100000},
    {"sqrt(sqrt(41800000))*x", 0x40400000, 0, 0x40c00000},
    {"x-x-x", 0x3f800000, 0, 0xbf800000},
    {"x-(x-x)", 0x3f800000, 0, 0x3f800000},
    {"x/x*x", 0x40000000, 0, 0x40000000},
    {"x/(x*x)", 0x40000000, 0, 0x3f000000},
    {"x*x-3f800002", 0x3f800001, 0, 0x00000000},
    {"80000000-x", 0x00000000, 0, 0x80000000},
    {"00000000-x", 0x00000000, 0, 0x00000000},
    /* each kernel, and the ends of what some take */
    {"sqrt(40800000)", 0, 0, 0x40000000},
    {"sqrt(x)", 0x40800000, 0, 0x40000000},
    {"sqrt(x)", 0xbf800000, DAMPMEADOW_NEGATIVE, 0},
    {"sqrt(80000000)", 0, 0, 0x80000000},
    {"invsqrt(3f800000)", 0, 0, 0x3f775a86},
    {"inv(3fc00000)", 0, 0, 0x3f400000},
    {"inv(bf800000)", 0, 0, 0xbf800000},
    {"recip(40400000)", 0, 0, 0x3eaaaa8f},
    {"recip(00000001)", 0, DAMPMEADOW_SMALL, 0},
    {"exp(00000000)", 0, 0, 0x3f800000},
    {"ln(3f400000)", 0, 0, 0xbecf96e8},
    {"atan(3f000000)", 0, 0, 0x3eeec47c},
    {"cos(00000000)", 0, 0, 0x3f800000},
    {"cos(43800000)", 0, 0, 0xbd212dba},
    {"cos(43800001)", 0, DAMPMEADOW_OUTSIDE, 0},
    {"sin(3f800000)", 0, 0, 0x3f57984f},
    {"floor(bf000000)", 0, 0, 0xbf800000},
    /* infinities and NaN, given and made */
    {"x", 0x7f800000, 0, 0x7f800000},
    {"x", 0xff800000, 0, 0xff800000},
    {"x", 0x7fc00000, 0, 0x7fc00000},
    {"x", 0xffc00001, 0, 0x7fc00000},
    {"ff800001", 0, 0, 0x7fc00000},
    {"3f800000/x", 0x00000000, 0, 0x7f800000},
    {"3f800000/x", 0x80000000, 0, 0xff800000},
    {"x/x", 0x00000000, 0, 0x7fc00000},
    {"x-x", 0x7f800000, 0, 0x7fc00000},
    {"sqrt(x)", 0x7fc00000, DAMPMEADOW_NOT_FINITE, 0},
    {"sqrt(3f800000/x)", 0x00000000, DAMPMEADOW_NOT_FINITE, 0},
    /* the first refusal, from left to right and from within; a fault comes before it */
    {"ln(00000000)+sqrt(bf800000)", 0, DAMPMEADOW_ZERO, 0},
    {"sqrt(bf800000)*ln(00000000)", 0, DAMPMEADOW_NEGATIVE, 0},
    {"sqrt(ln(00000000))", 0, DAMPMEADOW_ZERO, 0},
    {"ln(sqrt(bf800000))", 0, DAMPMEADOW_NEGATIVE, 0},
    {"sqrt(x)+", 0xbf800000, DAMPMEADOW_NOT_A_RECIPE, 0},
    {"sqrt(bf800000)+", 0, DAMPMEADOW_NOT_A_RECIPE, 0},
    {"sqrt(bf800000))", 0, DAMPMEADOW_NOT_A_RECIPE, 0},
    /* what is no recipe */
    {"", 0, DAMPMEADOW_NOT_A_RECIPE, 0},
    {"3f80000", 0, DAMPMEADOW_NOT_A_RECIPE, 0},
    {"3f8000000", 0, DAMPMEADOW_NOT_A_RECIPE, 0},
    {"3F800000", 0, DAMPMEADOW_NOT_A_RECIPE, 0},
    {"x +x", 0, DAMPMEADOW_NOT_A_RECIPE, 0},
    {"+x", 0, DAMPMEADOW_NOT_A_RECIPE, 0},
    {"-x", 0, DAMPMEADOW_NOT_A_RECIPE, 0},
    {"x*-x", 0, DAMPMEADOW_NOT_A_RECIPE, 0},
    {"(x", 0, DAMPMEADOW_NOT_A_RECIPE, 0},
    {"()", 0, DAMPMEADOW_NOT_A_RECIPE, 0},
    {"x(x)", 0, DAMPMEADOW_NOT_A_RECIPE, 0},
    {"(x)x", 0, DAMPMEADOW_NOT_A_RECIPE, 0},
    {"sqrt", 0, DAMPMEADOW_NOT_A_RECIPE, 0},
    {"sqrtx", 0, DAMPMEADOW_NOT_A_RECIPE, 0},
    {"sqrt()", 0, DAMPMEADOW_NOT_A_RECIPE, 0},
    {"sqrt (x)", 0, DAMPMEADOW_NOT_A_RECIPE, 0},
    {"Sqrt(x)", 0, DAMPMEADOW_NOT_A_RECIPE, 0},
    {"tan(x)", 0, DAMPMEADOW_NOT_A_RECIPE, 0},
    {"abs(x)", 0, DAMPMEADOW_NOT_A_RECIPE, 0},
};

/* Recipes that are put together, at 1: how one starts, what then stands so many times, how it goes on, how many ) follow. */
static const struct {
    const char *start, *again;
    int times;
    const char *end;
    int closes;
    uint32_t refusal, word;
} made[] = {
    /* 239 bytes, 240 and 241 */
    {"x", "+x", 119, "", 0, 0, 0x42f00000},
    {"00000000", "+x", 116, "", 0, 0, 0x42e80000},
    {"x", "+x", 120, "", 0, DAMPMEADOW_TOO_LONG, 0},
    {"", "x", 240, "", 0, DAMPMEADOW_NOT_A_RECIPE, 0},
    {"", "x", 241, "", 0, DAMPMEADOW_TOO_LONG, 0},
    {"", "(", 240, "", 0, DAMPMEADOW_TOO_DEEP, 0},
    {"", "(", 241, "", 0, DAMPMEADOW_TOO_LONG, 0},
    /* 16 deep and 17, with names too, in a recipe or not */
    {"", "(", 16, "x", 16, 0, 0x3f800000},
    {"", "(", 17, "x", 17, DAMPMEADOW_TOO_DEEP, 0},
    {"", "floor(", 16, "x", 16, 0, 0x3f800000},
    {"", "floor(", 17, "x", 17, DAMPMEADOW_TOO_DEEP, 0},
    {"(x)", "+(x)", 30, "", 0, 0, 0x41f80000},
    {"", "(", 16, "", 0, DAMPMEADOW_NOT_A_RECIPE, 0},
    {"", "(", 17, "", 0, DAMPMEADOW_TOO_DEEP, 0},
    {")", "(", 17, "", 0, DAMPMEADOW_NOT_A_RECIPE, 0},
    {")", "(", 18, "", 0, DAMPMEADOW_TOO_DEEP, 0},
    {"sqrt(bf800000) ", "(", 16, "", 16, DAMPMEADOW_NOT_A_RECIPE, 0},
    {"sqrt(bf800000) ", "(", 17, "", 17, DAMPMEADOW_TOO_DEEP, 0},
};

static void put_together(void)
{
    for (size_t i = 0; i < sizeof made / sizeof *made; i++) {
        char text[256] = "";
        strcat(text, made[i].start);
        for (int j = 0; j < made[i].times; j++) strcat(text, made[i].again);
        strcat(text, made[i].end);
        for (int j = 0; j < made[i].closes; j++) strcat(text, ")");
        recipe(text, 0x3f800000, made[i].refusal, made[i].word);
    }
}

void recipes(void)
{
    const uint32_t one = 0x3f800000;

    for (size_t i = 0; i < sizeof known / sizeof *known; i++)
        recipe(known[i].line, known[i].x, known[i].refusal, known[i].word);
    put_together();
    hold("no more of a recipe than is lent", dampmeadow_recipe((const uint8_t *)"x+x", 1, one), one);
    const uint64_t none_such = (uint64_t)DAMPMEADOW_NOT_A_RECIPE << 32;
    for (int byte = 0; byte < 256; byte++) {
        const uint8_t behind[2] = {'x', (uint8_t)byte};
        hold("a byte by itself", dampmeadow_recipe(behind + 1, 1, one), byte == 'x' ? one : none_such);
        hold("a byte behind x", dampmeadow_recipe(behind, 2, one), none_such);
    }
}
