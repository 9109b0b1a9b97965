/* header.c: the header in C99, included twice, beside a C++ translation unit that includes it too: sizes and offsets are judged by the compiler,
 * texts and a call from either language by the program. */
#include "gloamstrother.h"
#include "gloamstrother.h"

#include "check.h"

#include <string.h>

unsigned header_in_cpp(void);

/* C99 has no static assertion: an array of negative size does not compile. */
#define HOLDS(name, condition) typedef char name[(condition) ? 1 : -1]

HOLDS(least_frame, GLOAM_FRAME_SIZE(20) == 864);
HOLDS(most_frame, GLOAM_FRAME_SIZE(255) == 9324 && GLOAM_MOST_FRAME_SIZE == 9324);
HOLDS(least_marks, GLOAM_MARKS_SIZE(20) == 24 && GLOAM_SUB_PACKETS(20) == 24);
HOLDS(most_marks, GLOAM_MARKS_SIZE(255) == 259 && GLOAM_MOST_MARKS_SIZE == 259);
HOLDS(least_values, GLOAM_VALUES_SIZE(20) == 576);
HOLDS(most_values, GLOAM_VALUES_SIZE(255) == 6216 && GLOAM_MOST_VALUES_SIZE == 6216);
HOLDS(least_capture, GLOAM_CAPTURE_SIZE(20) == 679);
HOLDS(most_capture, GLOAM_CAPTURE_SIZE(255) == 7259 && GLOAM_MOST_CAPTURE_SIZE == 7259);
HOLDS(lengths, GLOAM_LEAST_LENGTH == 20 && GLOAM_MOST_LENGTH == 255 && GLOAM_MOST_MESSAGE_SIZE == 255);
HOLDS(burst, GLOAM_BURST_VALUES == 24 && GLOAM_VALUES_SIZE(20) == GLOAM_BURST_VALUES * GLOAM_SUB_PACKETS(20));
HOLDS(most_cost, GLOAM_MOST_COST == 128 * GLOAM_MOST_VALUES_SIZE);
HOLDS(an_expression_as_length, GLOAM_FRAME_SIZE(10 + 10) == 864 && 2 * GLOAM_CAPTURE_SIZE(10 + 10) == 1358);

HOLDS(written, sizeof(gloam_written) == 8 && offsetof(gloam_written, refusal) == 0 && offsetof(gloam_written, size) == 4);
HOLDS(read_back, sizeof(gloam_read) == 8 && offsetof(gloam_read, refusal) == 0 && offsetof(gloam_read, length) == 4);
HOLDS(recovered, sizeof(gloam_recovered) == 16 && offsetof(gloam_recovered, refusal) == 0 && offsetof(gloam_recovered, length) == 4);
HOLDS(recovered_rest, offsetof(gloam_recovered, mode) == 8 && offsetof(gloam_recovered, cost) == 12);
HOLDS(quantised, sizeof(gloam_quantised) == 12 && offsetof(gloam_quantised, refusal) == 0 && offsetof(gloam_quantised, finding) == 4);
HOLDS(quantised_rest, offsetof(gloam_quantised, peak) == 8 && sizeof(float) == 4);

HOLDS(numbers_1_to_4, GLOAM_DONE == 0 && GLOAM_REFUSED_LENGTH == 1 && GLOAM_REFUSED_SIZE == 2 && GLOAM_REFUSED_ROOM == 3 && GLOAM_REFUSED_MODE == 4);
HOLDS(numbers_5_to_7, GLOAM_REFUSED_MARK == 5 && GLOAM_REFUSED_SILENCE == 6 && GLOAM_REFUSED_HEADER_CRC == 7);
HOLDS(numbers_8_to_10, GLOAM_REFUSED_PSI == 8 && GLOAM_REFUSED_PAYLOAD_CRC == 9 && GLOAM_REFUSED_CAPTURE == 10);

HOLDS(findings, GLOAM_HEARD == 1 && GLOAM_SILENT == 2 && GLOAM_FAULTY == 3);

/* The version can be asked by the preprocessor too. */
#if GLOAM_VERSION < 200
#error "this test is of a later version than the header"
#endif

/* Every number has a text of its own; a number beyond has one that differs from all of them. */
static void check_texts(void)
{
    check_group("header: a text for every number");
    for (uint32_t one = 0; one <= 11; one++) {
        const char *text = gloam_refusal_text(one);
        check_case("number %u", (unsigned)one);
        if (!CHECK_TRUE("there is a text", text != NULL && text[0] != 0))
            return;
        for (uint32_t other = 0; other < one; other++)
            CHECK_TRUE("it is no other number's", strcmp(text, gloam_refusal_text(other)) != 0);
    }
    check_case("number 2");
    CHECK_TRUE("the text speaks of numbers too", strcmp(gloam_refusal_text(2), "message, marks, values or numbers are not of the exact size") == 0);
    check_case("number 2^32 - 1");
    CHECK_TRUE("the text is that of 11", strcmp(gloam_refusal_text(UINT32_MAX), gloam_refusal_text(11)) == 0);
}

static void check_version(void)
{
    check_group("header: its version is the archive's");
    check_case("gloam_version");
    CHECK_NUMBER("version", GLOAM_VERSION, gloam_version());
}

static void check_calls(void)
{
    uint8_t message[20] = {0}, frame[GLOAM_FRAME_SIZE(20)], values[GLOAM_BURST_VALUES];
    const float numbers[GLOAM_BURST_VALUES] = {-2.5f, 1};
    gloam_written built = gloam_uplink_build(20, 0, message, sizeof message, frame, sizeof frame);
    gloam_quantised quantised = gloam_burst_quantise(numbers, GLOAM_BURST_VALUES, values, sizeof values);
    check_group("header: calls from C99");
    check_case("build");
    CHECK_NUMBER("refusal", GLOAM_DONE, built.refusal);
    CHECK_NUMBER("size", sizeof frame, built.size);
    check_case("quantising");
    CHECK_NUMBER("refusal", GLOAM_DONE, quantised.refusal);
    CHECK_NUMBER("finding", GLOAM_HEARD, quantised.finding);
    CHECK_FLOAT("peak", 2.5f, quantised.peak);
    CHECK_NUMBER("first value, -3 in two's complement", 253, values[0]);
}

int main(void)
{
    check_texts();
    check_version();
    check_calls();
    check_group("header: calls from C++11");
    CHECK_NUMBER("wrong answers", 0, header_in_cpp());
    return check_end();
}
