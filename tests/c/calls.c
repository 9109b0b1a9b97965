#include "calls.h"

#include "check.h"

#include <stdio.h>
#include <string.h>

/* The most that any test lends beyond the greatest size. */
enum { SPARE = 64 };

void lent_make(struct lent *lent)
{
    guarded_make(&lent->message, "message", GLOAM_MOST_MESSAGE_SIZE + SPARE);
    guarded_make(&lent->frame, "frame", GLOAM_MOST_FRAME_SIZE + SPARE);
    guarded_make(&lent->marks, "marks", GLOAM_MOST_MARKS_SIZE + SPARE);
    guarded_make(&lent->values, "values", GLOAM_MOST_VALUES_SIZE + SPARE);
    guarded_make(&lent->capture, "capture", GLOAM_MOST_CAPTURE_SIZE + SPARE);
    guarded_make(&lent->numbers, "numbers", sizeof(float) * (GLOAM_BURST_VALUES + SPARE));
}

void lent_lay_numbers(struct lent *lent, const uint32_t *bits, size_t count, enum guarded_layout layout)
{
    guarded_lay_copy(&lent->numbers, (const uint8_t *)bits, sizeof *bits * count, layout);
}

void lent_empty_as_null(struct guarded *buffer)
{
    if (buffer->size == 0)
        buffer->bytes = NULL;
}

static void kept(struct guarded *buffer, size_t written)
{
    char what[80];
    snprintf(what, sizeof what, "%s: every byte but those written is as before", buffer->name);
    CHECK_TRUE(what, guarded_take_back(buffer, written));
}

gloam_written call_build(struct lent *lent, uint64_t length, uint64_t mode)
{
    struct guarded *message = &lent->message, *frame = &lent->frame;
    guarded_lend_in(message);
    guarded_lend_out(frame);
    gloam_written answer = gloam_uplink_build(length, mode, message->bytes, message->size, frame->bytes, frame->size);
    bool done = answer.refusal == GLOAM_DONE;
    CHECK_NUMBER("size", done ? GLOAM_FRAME_SIZE(length) : 0, answer.size);
    kept(message, 0);
    kept(frame, done ? answer.size : 0);
    return answer;
}

/* Marks and values are lent to be read, and a room to be written. */
static void lend_heard(struct lent *lent, struct guarded *room)
{
    guarded_lend_in(&lent->marks);
    guarded_lend_in(&lent->values);
    guarded_lend_out(room);
}

static void heard_kept(struct lent *lent, struct guarded *room, size_t written)
{
    kept(&lent->marks, 0);
    kept(&lent->values, 0);
    kept(room, written);
}

gloam_recovered call_recover(struct lent *lent, uint64_t length)
{
    struct guarded *marks = &lent->marks, *values = &lent->values, *message = &lent->message;
    lend_heard(lent, message);
    gloam_recovered answer = gloam_uplink_recover(length, marks->bytes, marks->size, values->bytes, values->size, message->bytes, message->size);
    bool done = answer.refusal == GLOAM_DONE;
    CHECK_NUMBER("length", done ? length : 0, answer.length);
    CHECK_TRUE("mode is 0 to 3, and 0 where refused", answer.mode <= (done ? 3 : 0));
    CHECK_TRUE("cost is within its bound, and 0 where refused", answer.cost <= (done ? GLOAM_MOST_COST : 0));
    heard_kept(lent, message, done ? answer.length : 0);
    return answer;
}

gloam_written call_capture_write(struct lent *lent, uint64_t length)
{
    struct guarded *marks = &lent->marks, *values = &lent->values, *capture = &lent->capture;
    lend_heard(lent, capture);
    gloam_written answer = gloam_capture_write(length, marks->bytes, marks->size, values->bytes, values->size, capture->bytes, capture->size);
    bool done = answer.refusal == GLOAM_DONE;
    CHECK_NUMBER("size", done ? GLOAM_CAPTURE_SIZE(length) : 0, answer.size);
    heard_kept(lent, capture, done ? answer.size : 0);
    return answer;
}

gloam_read call_capture_read(struct lent *lent)
{
    struct guarded *capture = &lent->capture, *marks = &lent->marks, *values = &lent->values;
    guarded_lend_in(capture);
    guarded_lend_out(marks);
    guarded_lend_out(values);
    gloam_read answer = gloam_capture_read(capture->bytes, capture->size, marks->bytes, marks->size, values->bytes, values->size);
    bool done = answer.refusal == GLOAM_DONE;
    CHECK_NUMBER("length", done ? capture->bytes[3] : 0, answer.length);
    kept(capture, 0);
    kept(marks, done ? GLOAM_MARKS_SIZE(answer.length) : 0);
    kept(values, done ? GLOAM_VALUES_SIZE(answer.length) : 0);
    return answer;
}

/* What holds for every answer of quantising: a finding and 24 bytes, none of them -128; or zeros. */
static void check_quantised(gloam_quantised answer, const uint8_t *values)
{
    bool done = answer.refusal == GLOAM_DONE;
    CHECK_TRUE("finding is 1 to 3, and 0 where refused", done ? answer.finding >= 1 && answer.finding <= 3 : answer.finding == 0);
    if (answer.finding != GLOAM_HEARD)
        CHECK_FLOAT("peak where the burst is not heard", 0.0f, answer.peak);
    for (size_t k = 0; done && k < GLOAM_BURST_VALUES; k++)
        CHECK_TRUE("a value is not -128", values[k] != 0x80);
}

gloam_quantised call_quantise(struct lent *lent)
{
    struct guarded *numbers = &lent->numbers, *values = &lent->values;
    guarded_lend_in(numbers);
    guarded_lend_out(values);
    gloam_quantised answer = gloam_burst_quantise((const float *)(void *)numbers->bytes, numbers->size / sizeof(float), values->bytes, values->size);
    kept(numbers, 0);
    kept(values, answer.refusal == GLOAM_DONE ? GLOAM_BURST_VALUES : 0);
    check_quantised(answer, values->bytes);
    return answer;
}

bool called_short(int argc, char **argv)
{
    return argc > 1 && strcmp(argv[1], "--short") == 0;
}

enum guarded_layout first_layout(bool is_short)
{
    return is_short ? GUARDED_MALLOC : GUARDED_PAGE_AFTER;
}

enum guarded_layout last_layout(bool is_short)
{
    return is_short ? GUARDED_MALLOC : GUARDED_PAGE_BEFORE;
}
