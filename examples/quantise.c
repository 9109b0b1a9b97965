/* quantise.c: the 24 numbers of one burst, as text on standard input, to the values that recovery takes, from C.
 *
 *     cc quantise.c $(pkg-config --cflags --libs gloamstrother) -o quantise
 *     echo 0.5 -0.5 60.2 -61.7 130 -130 inf -inf 0 0 0 0 0 0 0 0 0 0 0 0 0 0 0 0 | ./quantise
 */
#include <gloamstrother.h>
#include <stdio.h>

static const char *finding_text(uint32_t finding)
{
    return finding == GLOAM_HEARD ? "heard" : finding == GLOAM_SILENT ? "silent" : "faulty";
}

int main(void)
{
    /* One number more than a burst has, so that too many are seen to be. */
    float numbers[GLOAM_BURST_VALUES + 1];
    uint8_t values[GLOAM_BURST_VALUES];
    size_t count = 0;

    if (gloam_version() != GLOAM_VERSION) {
        fprintf(stderr, "the header is of version %u and the archive of %u\n", (unsigned)GLOAM_VERSION, (unsigned)gloam_version());
        return 2;
    }

    while (count < GLOAM_BURST_VALUES + 1 && scanf("%f", &numbers[count]) == 1)
        count++;
    gloam_quantised burst = gloam_burst_quantise(numbers, count, values, sizeof values);
    if (burst.refusal != GLOAM_DONE) {
        fprintf(stderr, "refused %u: %s\n", (unsigned)burst.refusal, gloam_refusal_text(burst.refusal));
        return 1;
    }

    printf("%s", finding_text(burst.finding));
    if (burst.finding == GLOAM_HEARD)
        printf(", peak %g", (double)burst.peak);
    printf(":");
    for (size_t k = 0; k < GLOAM_BURST_VALUES; k++)
        printf(" %d", values[k] < 128 ? values[k] : values[k] - 256);
    printf("\n");
    return 0;
}
