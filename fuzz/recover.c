/* recover.c: libFuzzer's target over gloam_uplink_recover, compared with the independent decoder.
 *
 * Every input is a call. One that begins with a capture's first tag, 01, is read as a capture whose form does not matter: length, marks and values
 * as they stand. Any other is a plan: a frame is made and heard as the plan says, so that the search and each check are reached:
 *   1 byte   bits 1 to 7: see the PLAN_ names
 *   1 byte   the length: mostly 20 to 39, which run fastest
 *   4 bytes  the message, as the start of a stream of numbers
 *   1 byte   the mode, and how many payload bits are turned, 0 to 3; 2 bytes for each: which
 *   1 byte   how loud the frame is; 1 byte: how loud the noise
 *   4 bytes  the losses, a bit a sub-packet, over and over
 *   the rest, three bytes each: a value's place, and the value; or with PLAN_RAW all values, over and over */
#include "compare.h"
#include "model.h"

#include <string.h>

enum { PLAN_LENGTH = 2, PLAN_SIZES = 4, PLAN_MARK = 8, PLAN_RAW = 16, PLAN_HEADER = 32, PLAN_NO_LOSS = 64, PLAN_PAGE = 128 };
enum { SPARE = 256 };

/* One call. */
struct call {
    uint64_t told;
    size_t marks_size, values_size, message_size;
    uint8_t marks[GLOAM_MOST_MARKS_SIZE + SPARE], values[GLOAM_MOST_VALUES_SIZE + SPARE];
    enum guarded_layout layout;
};

static void right_sizes(struct call *call, size_t length)
{
    call->told = length;
    call->marks_size = GLOAM_MARKS_SIZE(length);
    call->values_size = GLOAM_VALUES_SIZE(length);
    call->message_size = length;
}

/* The capture's bytes where they would stand, whatever its tags say. */
static void from_capture(struct call *call, const uint8_t *data, size_t size)
{
    size_t length = size > 3 && data[3] >= GLOAM_LEAST_LENGTH ? data[3] : GLOAM_LEAST_LENGTH;
    right_sizes(call, length);
    for (size_t k = 0; k < call->marks_size; k++)
        call->marks[k] = 7 + k < size ? data[7 + k] : 1;
    for (size_t k = 0; k < call->values_size; k++) {
        size_t at = 11 + length + 27 * (k / 24) + 3 + k % 24;
        call->values[k] = at < size ? data[at] : 0;
    }
}

/* The frame of the planned message, some of whose payload bits are turned. */
static void planned_frame(struct input *input, size_t length, unsigned plan, uint8_t *frame)
{
    uint8_t message[GLOAM_MOST_MESSAGE_SIZE], bits[MODEL_MOST_BITS];
    uint64_t random = take_number(input, 4) + 1;
    model_random_bytes(&random, message, length);
    unsigned mode_and_turned = take(input);
    size_t count = model_payload(message, length, mode_and_turned & 3, bits);
    for (unsigned k = 0; k < (mode_and_turned >> 2 & 3); k++)
        bits[take_number(input, 2) % count] ^= 1;
    if (plan & PLAN_HEADER)
        model_header_again(bits);
    model_frame(bits, length, frame);
}

static int held(int value)
{
    return value > 127 ? 127 : value < -128 ? -128 : value;
}

/* The frame as it is heard: loud, with noise, and with some sub-packets lost. */
static void planned_heard(struct input *input, struct call *call, size_t length, unsigned plan, const uint8_t *frame)
{
    int loud = take(input) & 127, noise = take(input) & 127;
    uint32_t lost = (uint32_t)take_number(input, 4);
    uint64_t random = 1 + lost + ((uint64_t)noise << 32);
    model_heard(frame, length, loud, call->values);
    for (size_t k = 0; k < call->values_size && noise > 0; k++)
        call->values[k] = (uint8_t)held((int8_t)call->values[k] + (int)(model_random(&random) % (2 * (unsigned)noise + 1)) - noise);
    for (size_t s = 0; s < call->marks_size; s++)
        call->marks[s] = plan & PLAN_NO_LOSS ? 1 : ~(lost >> s % 32) & 1;
}

static void planned_values(struct input *input, struct call *call, unsigned plan)
{
    if (plan & PLAN_RAW && input->left > 0)
        for (size_t k = 0; k < call->values_size; k++)
            call->values[k] = input->at[k % input->left];
    while (!(plan & PLAN_RAW) && input->left >= 3) {
        size_t place = take_number(input, 2) % call->values_size;
        call->values[place] = take(input);
    }
}

/* What is wrong with the form, where the plan says so: mostly nothing. */
static void planned_form(struct input *input, struct call *call, unsigned plan)
{
    if (plan & PLAN_LENGTH)
        call->told = take_number(input, 1 + take(input) % 8);
    if (plan & PLAN_MARK) {
        size_t place = take_number(input, 2) % call->marks_size;
        call->marks[place] = take(input);
    }
    if (plan & PLAN_SIZES) {
        call->marks_size += take(input) % 3 - (size_t)1;
        call->values_size += take(input) % 3 - (size_t)1;
        call->message_size += take(input) % SPARE - (size_t)20;
    }
}

static size_t planned_length(unsigned byte)
{
    return GLOAM_LEAST_LENGTH + (byte < 160 ? byte % 20 : (byte - 160) * 235 / 95);
}

static void from_plan(struct call *call, struct input input)
{
    uint8_t frame[GLOAM_MOST_FRAME_SIZE];
    unsigned plan = take(&input);
    size_t length = planned_length(take(&input));
    right_sizes(call, length);
    planned_frame(&input, length, plan, frame);
    planned_heard(&input, call, length, plan, frame);
    planned_form(&input, call, plan);
    planned_values(&input, call, plan);
    call->layout = plan & PLAN_PAGE ? GUARDED_PAGE_BEFORE : GUARDED_PAGE_AFTER;
}

static gloam_recovered ours(const struct call *call, struct guarded *marks, struct guarded *values, struct guarded *message)
{
    guarded_lay_copy(marks, call->marks, call->marks_size, call->layout);
    guarded_lay_copy(values, call->values, call->values_size, call->layout);
    guarded_lay(message, call->message_size, call->layout, 0xEE);
    guarded_lend_in(marks);
    guarded_lend_in(values);
    guarded_lend_out(message);
    gloam_recovered answer = gloam_uplink_recover(call->told, marks->bytes, marks->size, values->bytes, values->size, message->bytes, message->size);
    must_be_kept(marks, 0);
    must_be_kept(values, 0);
    must_be_kept(message, answer.refusal == GLOAM_DONE ? answer.length : 0);
    return answer;
}

static void compare(const struct call *call)
{
    static struct guarded marks, values, message;
    static uint8_t theirs_message[GLOAM_MOST_MESSAGE_SIZE + SPARE];
    if (marks.pages == NULL) {
        guarded_make(&marks, "marks", sizeof call->marks);
        guarded_make(&values, "values", sizeof call->values);
        guarded_make(&message, "message", sizeof theirs_message);
    }
    memset(theirs_message, 0xEE, sizeof theirs_message);
    gloam_recovered theirs = reference_recover(call->told, call->marks, call->marks_size, call->values, call->values_size, theirs_message, call->message_size);
    gloam_recovered answer = ours(call, &marks, &values, &message);
    must_be_alike("refusal", answer.refusal, theirs.refusal);
    must_be_alike("length", answer.length, theirs.length);
    must_be_alike("mode", answer.mode, theirs.mode);
    must_be_alike("cost", answer.cost, theirs.cost);
    must_be_alike_bytes("message", message.bytes, theirs_message, call->message_size);
}

int LLVMFuzzerTestOneInput(const uint8_t *data, size_t size)
{
    static struct call call;
    memset(&call, 0, sizeof call);
    if (size > 0 && data[0] == 1)
        from_capture(&call, data, size);
    else
        from_plan(&call, (struct input){data, size});
    compare(&call);
    return 0;
}
