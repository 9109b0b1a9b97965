/* recover.c: prints the message in a stored capture, from C.
 *
 *     cc recover.c $(pkg-config --cflags --libs gloamstrother) -o recover
 *     ./recover < clean_20.capture
 */
#include <gloamstrother.h>
#include <stdio.h>

int main(void)
{
    /* One byte more than the longest capture, so that one that is too long is seen to be. */
    static uint8_t capture[GLOAM_MOST_CAPTURE_SIZE + 1];
    static uint8_t marks[GLOAM_MOST_MARKS_SIZE], values[GLOAM_MOST_VALUES_SIZE], message[GLOAM_MOST_MESSAGE_SIZE];

    if (gloam_version() != GLOAM_VERSION) {
        fprintf(stderr, "the header is of version %u and the archive of %u\n", (unsigned)GLOAM_VERSION, (unsigned)gloam_version());
        return 2;
    }

    size_t size = fread(capture, 1, sizeof capture, stdin);
    gloam_read heard = gloam_capture_read(capture, size, marks, sizeof marks, values, sizeof values);
    if (heard.refusal != GLOAM_DONE) {
        fprintf(stderr, "refused %u: %s\n", (unsigned)heard.refusal, gloam_refusal_text(heard.refusal));
        return 1;
    }

    gloam_recovered got = gloam_uplink_recover(heard.length, marks, GLOAM_MARKS_SIZE(heard.length),
                                               values, GLOAM_VALUES_SIZE(heard.length), message, sizeof message);
    if (got.refusal != GLOAM_DONE) {
        fprintf(stderr, "refused %u: %s\n", (unsigned)got.refusal, gloam_refusal_text(got.refusal));
        return 1;
    }

    printf("%u bytes, mode %u, cost %u: ", (unsigned)got.length, (unsigned)got.mode, (unsigned)got.cost);
    for (uint32_t k = 0; k < got.length; k++)
        printf("%02x", message[k]);
    printf("\n");
    return 0;
}
