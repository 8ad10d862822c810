/* Finds dust on a small scan by the strength and the direction of its edges.
 *
 *   specks FOLDER
 *
 * Makes a grey picture of 96 by 64 pixels: a white sky, a wire across it, a snowy roof with grain, one dead cell and some
 * specks of dust. Each pixel has a horizontal and a vertical difference, and from these a strength (guarded hypot) and a
 * direction (guarded atan2), worked out a row at a time. Where the library refuses, the pixel is counted by its refusal and
 * left alone: in flat white both differences are 0, and 0 and 0 have no direction. A dust speck has edges that point all ways
 * round; a roof line or a wire does not, however strong it is.
 *
 * Writes FOLDER/specks.pgm, the picture as scanned, and FOLDER/marked.ppm, the same with the specks in red, what was
 * refused as not finite in blue and what was refused for its two differences of 0 in pale yellow.
 * Exit status: 0 every speck was found and nothing else, 1 not so, 2 it could not be run.
 */
#include <stdio.h>
#include "dampmeadow.h"

enum { WIDE = 96, HIGH = 64, INNER = WIDE - 2, NEAR = 3, REFUSALS = 11 }; /* INNER pixels of a row have both neighbours */

static const float STRONG = 14.0f;  /* grey levels a pixel; the grain stays below it */
static const float QUARTER = 1.57079633f;

static float scan[HIGH][WIDE];         /* grey, 0 to 255; the dead cell is a NaN */
static uint32_t strength[HIGH][WIDE];  /* a float's word, as the library gives it */
static uint32_t direction[HIGH][WIDE]; /* the same, in radians; 0 points right, a quarter turn down */
static uint32_t refused[HIGH][WIDE];   /* the refusal, 0 where answered */
static int marked[HIGH][WIDE];         /* 0, or the number of its speck */


/* ---- the picture ---- */

static const struct { float x, y, radius, depth; } dust[] = {
    {14, 7, 2.4f, 150}, {45, 6, 1.8f, 120}, {82, 26, 2.8f, 170},   /* in the sky */
    {30, 51, 2.2f, 110}, {56, 42, 2.6f, 120}, {84, 55, 1.9f, 100}, /* on the snow */
};
enum { DUST = sizeof dust / sizeof dust[0], DEAD_X = 66, DEAD_Y = 57 };

/* The same grain every time: xorshift, and the sum of two draws. From -6 to 6, mostly near 0. */
static float grain(void)
{
    static uint32_t state = 2463534242u;
    int sum = 0;
    for (int i = 0; i < 2; i++) {
        state ^= state << 13, state ^= state >> 17, state ^= state << 5;
        sum += (int)(state >> 16) % 4;
    }
    return (float)(2 * (sum - 3));
}

static float between(float low, float x, float high) { return x < low ? low : x > high ? high : x; }

static void make_picture(void)
{
    for (int y = 0; y < HIGH; y++) for (int x = 0; x < WIDE; x++) {
        /* the roof: its ridge is over the middle, and its line is soft, some four pixels from sky to snow */
        float line = 23.0f + 0.45f * (x < 48 ? 48.0f - x : x - 48.0f);
        float snow = between(0, (y - line) / 4.0f + 0.5f, 1);
        float grey = 262.0f - 82.0f * snow;
        /* the wire: one dark line over the whole sky */
        float off = (float)y - (15.0f + 0.03f * x);
        if (off < 0) off = -off;
        grey -= 110.0f * between(0, 1.5f - off, 1);
        for (int i = 0; i < DUST; i++) {
            float dx = x - dust[i].x, dy = y - dust[i].y;
            float share = (dx * dx + dy * dy) / (dust[i].radius * dust[i].radius);
            if (share < 1) grey -= dust[i].depth * (1 - share);
        }
        /* the sky is past white, so that its grain is lost: flat white, as film gives it */
        scan[y][x] = (float)(int)between(0, grey + grain(), 255);
    }
    /* A cell that saw nothing, over a reference that saw nothing. */
    volatile float nothing = 0;
    scan[DEAD_Y][DEAD_X] = nothing / nothing;
}

/* ---- strength and direction ---- */

/* Scores a row by two strips. Gives the refusal of a strip as a whole, 0 where there is none. */
static uint32_t score(int y)
{
    uint32_t across[INNER], down[INNER], undirected[INNER];
    for (int x = 1; x <= INNER; x++) {
        across[x - 1] = dampmeadow_bits((scan[y][x + 1] - scan[y][x - 1]) / 2);
        down[x - 1] = dampmeadow_bits((scan[y + 1][x] - scan[y - 1][x]) / 2);
    }
    uint32_t whole = dampmeadow_strip(DAMPMEADOW_HYPOT, across, INNER, down, INNER,
                                      &strength[y][1], INNER, &refused[y][1], INNER);
    if (whole != 0) return whole;
    whole = dampmeadow_strip(DAMPMEADOW_ATAN2, down, INNER, across, INNER, /* y first */
                             &direction[y][1], INNER, undirected, INNER);
    if (whole != 0) return whole;
    for (int x = 1; x <= INNER; x++) if (refused[y][x] == 0) refused[y][x] = undirected[x - 1];
    return 0;
}

static int strong(int x, int y)
{
    return x > 0 && y > 0 && x < WIDE - 1 && y < HIGH - 1 && refused[y][x] == 0 && dampmeadow_float(strength[y][x]) > STRONG;
}

/* right, down, left or up: the quarter turn in whose middle the direction lies */
static int side(float angle)
{
    if (angle > -0.5f * QUARTER && angle <= 0.5f * QUARTER) return 0;
    if (angle > 0.5f * QUARTER && angle <= 1.5f * QUARTER) return 1;
    if (angle < -0.5f * QUARTER && angle >= -1.5f * QUARTER) return 3;
    return 2;
}

/* Do the strong edges near a pixel point all four ways? */
static int all_round(int x, int y)
{
    int seen = 0;
    for (int v = y - NEAR; v <= y + NEAR; v++) for (int u = x - NEAR; u <= x + NEAR; u++)
        if (strong(u, v)) seen |= 1 << side(dampmeadow_float(direction[v][u]));
    return seen == 15;
}

/* Gives the pixels that hang together one number. They are numbered -1 before. */
static int gather(int x, int y, int speck)
{
    if (x < 0 || y < 0 || x >= WIDE || y >= HIGH || marked[y][x] != -1) return 0;
    int count = 1;
    marked[y][x] = speck;
    for (int v = y - 1; v <= y + 1; v++) for (int u = x - 1; u <= x + 1; u++) count += gather(u, v, speck);
    return count;
}

/* ---- what a person looks at ---- */

/* A refusal, or for one that is newer than this program the number after those it knows. */
static int kind(uint32_t refusal) { return refusal < REFUSALS ? (int)refusal : REFUSALS; }

static int write_picture(const char *folder, const char *name, int colour)
{
    char path[4096];
    if (snprintf(path, sizeof path, "%s/%s", folder, name) >= (int)sizeof path) return 0;
    FILE *file = fopen(path, "wb");
    if (!file) { perror(path); return 0; }
    fprintf(file, "P%d\n%d %d\n255\n", colour ? 6 : 5, WIDE, HIGH);
    for (int y = 0; y < HIGH; y++) for (int x = 0; x < WIDE; x++) {
        /* a picture has no NaN: the dead cell is shown black */
        unsigned char grey = scan[y][x] >= 0 ? (unsigned char)scan[y][x] : 0;
        unsigned char rgb[3] = {grey, grey, grey};
        if (marked[y][x]) rgb[0] = 230, rgb[1] = rgb[2] = 30;
        else if (refused[y][x] == 1) rgb[0] = 40, rgb[1] = 90, rgb[2] = 230;
        else if (refused[y][x] == 4) rgb[2] = (unsigned char)(grey - grey / 5);
        if (colour) fwrite(rgb, 1, 3, file);
        else fputc(grey, file);
    }
    if (fclose(file) != 0) { perror(path); return 0; }
    return 1;
}

int main(int argc, char **argv)
{
    static const char *const why[REFUSALS + 1] = {
        "answered", "a difference is not finite", "the first operand is 0", "the first operand is below 0",
        "outside what the operation takes: both differences are 0", "the power is out of range", "no such operation",
        "malformed", "too little space", "the first operand is too small", "lists of different lengths", "not known to this program",
    };
    int count[REFUSALS + 1] = {0}, edges = 0, pixels = 0, found = 0, hit[DUST] = {0}, astray = 0;
    if (argc != 2) { fprintf(stderr, "specks: wants the folder for its pictures\n"); return 2; }

    make_picture();
    for (int y = 1; y < HIGH - 1; y++) {
        uint32_t whole = score(y);
        if (whole != 0) { fprintf(stderr, "specks: row %d is refused with %d: %s\n", y, (int)whole, why[kind(whole)]); return 2; }
        for (int x = 1; x < WIDE - 1; x++) count[kind(refused[y][x])]++, edges += strong(x, y);
    }
    for (int y = 1; y < HIGH - 1; y++) for (int x = 1; x < WIDE - 1; x++)
        if (strong(x, y) && all_round(x, y)) marked[y][x] = -1, pixels++;

    printf("%d by %d pixels, of which %d have neighbours on all sides\n", WIDE, HIGH, (WIDE - 2) * (HIGH - 2));
    printf("%6d  answered\n", count[0]);
    for (int i = 1; i <= REFUSALS; i++) if (count[i]) printf("%6d  refused with %d: %s\n", count[i], i, why[i]);
    printf("%6d  strong edges, above %g grey levels a pixel\n", edges, STRONG);
    printf("%6d  of these in specks: edges near them point all four ways\n", pixels);
    for (int y = 0; y < HIGH; y++) for (int x = 0; x < WIDE; x++) if (marked[y][x] == -1) {
        int size = gather(x, y, ++found), left = WIDE, right = 0, top = HIGH, foot = 0;
        float most = 0;
        for (int v = 0; v < HIGH; v++) for (int u = 0; u < WIDE; u++) if (marked[v][u] == found) {
            if (u < left) left = u;
            if (u > right) right = u;
            if (v < top) top = v;
            if (v > foot) foot = v;
            if (dampmeadow_float(strength[v][u]) > most) most = dampmeadow_float(strength[v][u]);
        }
        float mx = (left + right) / 2.0f, my = (top + foot) / 2.0f;
        int known = 0;
        for (int i = 0; i < DUST; i++) {
            float dx = mx - dust[i].x, dy = my - dust[i].y;
            if (dx * dx + dy * dy <= 2.25f) hit[i]++, known = 1;
        }
        astray += !known;
        printf("        speck %d about column %g, row %g: %d pixels, strongest edge %.1f%s\n", found, mx, my, size, most,
               known ? "" : ", where no dust was put");
    }
    int missed = 0, twice = 0;
    for (int i = 0; i < DUST; i++) missed += hit[i] == 0, twice += hit[i] > 1;
    printf("%6d  specks found, %d put in, %d missed, %d where there is none\n", found, DUST, missed, astray);
    printf("Raw atan2 of two zeros is %08x, a NaN; guarded, it is refused with %d.\n",
           (unsigned)dampmeadow_word_of(dampmeadow_words(DAMPMEADOW_RAW + DAMPMEADOW_ATAN2, 0, 0)),
           (int)dampmeadow_refusal_of(dampmeadow_words(DAMPMEADOW_ATAN2, 0, 0)));

    if (!write_picture(argv[1], "specks.pgm", 0) || !write_picture(argv[1], "marked.ppm", 1)) return 2;
    return missed || twice || astray;
}
