/* Keeps the mean and the summed square deviation of samples as they come.
 *
 *   grain < SAMPLES
 *
 * Reads numbers, with white space between them, from standard input: 118, 0.5 and nan are some. For each it writes a line: the
 * sample, and then how many were taken so far, how many refused, the mean, and the sum of the squared deviations from it; or,
 * where the sample is refused, with which number. A refused sample leaves the mean and the sum as they were. At the end it
 * writes the mean and the spread, which is about the square root of the sum over the count.
 * Exit status: 0, or 1 where something in the input is no number, or is one of 63 characters or more, or no sample was taken.
 */
#include <stdio.h>
#include <stdlib.h>
#include <string.h>
#include "dampmeadow.h"

int main(void)
{
    struct dampmeadow_grain grain = {0, 0, 0.0f, 0.0f};
    char text[64];
    printf("%-10s %6s %7s %14s %14s\n", "sample", "taken", "refused", "mean", "sum");
    while (scanf("%63s", text) == 1) {
        char *end;
        float sample = strtof(text, &end);
        if (*end != '\0' || strlen(text) == sizeof text - 1) { /* what fills the text may have been cut */
            fprintf(stderr, "grain: %s is no number\n", text);
            return 1;
        }
        uint32_t refusal = dampmeadow_grain_offer(&grain, dampmeadow_bits(sample));
        if (refusal != DAMPMEADOW_ANSWERED) printf("%-10s refused with %u\n", text, (unsigned)refusal);
        else printf("%-10s %6u %7u %14.9g %14.9g\n", text, (unsigned)grain.count, (unsigned)grain.refused, grain.mean, grain.sum);
    }
    if (grain.count == 0) {
        fprintf(stderr, "grain: no sample was taken\n");
        return 1;
    }
    /* the library's own square root, an estimate; of a spread of 0 it is 0 */
    uint64_t spread = dampmeadow_words(DAMPMEADOW_SQRT, dampmeadow_bits(grain.sum / (float)grain.count), 0);
    printf("mean %.9g", grain.mean);
    if (dampmeadow_refusal_of(spread) != DAMPMEADOW_ANSWERED) printf(", no spread: refused with %u", (unsigned)dampmeadow_refusal_of(spread));
    else printf(", spread about %.9g", dampmeadow_float(dampmeadow_word_of(spread)));
    printf(", of %u samples; %u refused\n", (unsigned)grain.count, (unsigned)grain.refused);
    return 0;
}
