/* capture.c: libFuzzer's target over gloam_capture_read, compared with the independent reader.
 *
 * Each input is read as it is, and once more mended: with the size, tags and lengths of a capture of its length, and then one byte changed as its
 * last three bytes say, so that what lies behind the form is reached. Each with exact room, more room, and too little. */
#include "compare.h"

#include <string.h>

enum { SPARE = 64, MOST = GLOAM_CAPTURE_SIZE(255) + SPARE };

static struct guarded capture, marks, values;

static gloam_read ours(const uint8_t *data, size_t size, size_t marks_size, size_t values_size, enum guarded_layout layout)
{
    guarded_lay_copy(&capture, data, size, layout);
    guarded_lay(&marks, marks_size, layout, 0xEE);
    guarded_lay(&values, values_size, layout, 0xEE);
    guarded_lend_in(&capture);
    guarded_lend_out(&marks);
    guarded_lend_out(&values);
    gloam_read answer = gloam_capture_read(capture.bytes, capture.size, marks.bytes, marks.size, values.bytes, values.size);
    bool done = answer.refusal == GLOAM_DONE;
    must_be_kept(&capture, 0);
    must_be_kept(&marks, done ? GLOAM_MARKS_SIZE(answer.length) : 0);
    must_be_kept(&values, done ? GLOAM_VALUES_SIZE(answer.length) : 0);
    return answer;
}

static void compare(const uint8_t *data, size_t size, size_t marks_size, size_t values_size, enum guarded_layout layout)
{
    static uint8_t their_marks[GLOAM_MOST_MARKS_SIZE + SPARE], their_values[GLOAM_MOST_VALUES_SIZE + SPARE];
    memset(their_marks, 0xEE, sizeof their_marks);
    memset(their_values, 0xEE, sizeof their_values);
    gloam_read theirs = reference_capture_read(data, size, their_marks, marks_size, their_values, values_size);
    gloam_read answer = ours(data, size, marks_size, values_size, layout);
    must_be_alike("refusal", answer.refusal, theirs.refusal);
    must_be_alike("length", answer.length, theirs.length);
    must_be_alike_bytes("marks", marks.bytes, their_marks, marks_size);
    must_be_alike_bytes("values", values.bytes, their_values, values_size);
}

static void compare_in_rooms(const uint8_t *data, size_t size)
{
    size_t length = size > 3 ? data[3] : 0, marks_size = GLOAM_MARKS_SIZE(length), values_size = GLOAM_VALUES_SIZE(length);
    compare(data, size, marks_size, values_size, GUARDED_PAGE_AFTER);
    compare(data, size, marks_size + 1, values_size + 1, GUARDED_PAGE_BEFORE);
    compare(data, size, marks_size - 1, values_size, GUARDED_PAGE_AFTER);
    compare(data, size, marks_size, values_size - 1, GUARDED_PAGE_BEFORE);
    compare(data, size, 0, 0, GUARDED_PAGE_AFTER);
}

static void put_form(uint8_t *at, uint8_t tag, size_t size)
{
    at[0] = tag;
    at[1] = (uint8_t)(size >> 8);
    at[2] = (uint8_t)size;
}

/* The input as a capture of its length; how many bytes it has. */
static size_t mend(uint8_t *mended, const uint8_t *data, size_t size)
{
    size_t length = size > 3 && data[3] >= GLOAM_LEAST_LENGTH ? data[3] : GLOAM_LEAST_LENGTH;
    memset(mended, 0, GLOAM_CAPTURE_SIZE(length));
    memcpy(mended, data, size < GLOAM_CAPTURE_SIZE(length) ? size : GLOAM_CAPTURE_SIZE(length));
    put_form(mended, 1, 1);
    mended[3] = (uint8_t)length;
    put_form(mended + 4, 2, length + 4);
    for (size_t s = 0; s < length + 4; s++) {
        put_form(mended + 11 + length + 27 * s, 3, 24);
        mended[7 + s] &= 1;
    }
    return GLOAM_CAPTURE_SIZE(length);
}

static void compare_mended(const uint8_t *data, size_t size)
{
    static uint8_t mended[MOST];
    size_t mended_size = mend(mended, data, size);
    compare_in_rooms(mended, mended_size);
    if (size < 3)
        return;
    size_t place = ((size_t)data[size - 3] << 8 | data[size - 2]) % mended_size;
    mended[place] = data[size - 1];
    compare_in_rooms(mended, mended_size);
}

int LLVMFuzzerTestOneInput(const uint8_t *data, size_t size)
{
    if (capture.pages == NULL) {
        guarded_make(&capture, "capture", MOST);
        guarded_make(&marks, "marks", GLOAM_MOST_MARKS_SIZE + SPARE);
        guarded_make(&values, "values", GLOAM_MOST_VALUES_SIZE + SPARE);
    }
    if (size > MOST)
        return 0;
    compare_in_rooms(data, size);
    compare_mended(data, size);
    return 0;
}
