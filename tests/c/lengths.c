/* lengths.c: every length from 20 to 255. What build sends is what the model sends; what is heard of it, clean or with noise and losses, gives
 * the message back; a capture is written and read byte for byte. Rooms of the exact size and larger ones, against guard pages on either side. */
#include "calls.h"
#include "check.h"
#include "model.h"

#include <string.h>

static struct lent lent;
static bool is_short;

/* One message, and what is heard of its frame. */
struct sample {
    size_t length;
    unsigned mode;
    uint32_t cost;
    uint8_t message[GLOAM_MOST_MESSAGE_SIZE], frame[GLOAM_MOST_FRAME_SIZE];
    uint8_t marks[GLOAM_MOST_MARKS_SIZE], values[GLOAM_MOST_VALUES_SIZE], capture[GLOAM_MOST_CAPTURE_SIZE];
};

static void make_frame(struct sample *sample)
{
    uint8_t bits[MODEL_MOST_BITS];
    model_payload(sample->message, sample->length, sample->mode, bits);
    model_frame(bits, sample->length, sample->frame);
}

static void make_clean(struct sample *sample, size_t length, size_t variant)
{
    uint64_t random = 1000003 * (uint64_t)length + variant;
    sample->length = length;
    sample->mode = (unsigned)(length + variant) % 4;
    sample->cost = 0;
    model_random_bytes(&random, sample->message, length);
    make_frame(sample);
    model_heard(sample->frame, length, 1 + (int)length % 127, sample->values);
    memset(sample->marks, 1, length + 4);
}

/* Values on the right side weigh 60 to 127; one in ten of those heard stands on the wrong side and weighs 1 to 15. Every third sub-packet is
 * lost, and anything at all stands in it. */
static void make_noisy(struct sample *sample, size_t length, size_t variant)
{
    uint64_t random = 77 * (uint64_t)length + variant + 1;
    make_clean(sample, length, variant);
    model_heard(sample->frame, length, 1, sample->values);
    for (size_t k = 0; k < 24 * (length + 4); k++) {
        uint32_t drawn = model_random(&random);
        bool is_lost = (k / 24 + variant) % 3 == 0, is_wrong = drawn % 10 == 0;
        int weight = is_wrong ? -(int)(1 + drawn / 16 % 15) : (int)(60 + drawn / 16 % 68);
        sample->marks[k / 24] = !is_lost;
        sample->values[k] = (uint8_t)(is_lost ? (int)drawn >> 8 : weight * (int8_t)sample->values[k]);
        sample->cost += is_wrong && !is_lost ? (uint32_t)-weight : 0;
    }
}

/* As loud as can be, 127 and -128; one value in forty stands on the wrong side. */
static void make_loud(struct sample *sample, size_t length, size_t variant)
{
    make_clean(sample, length, variant);
    model_heard(sample->frame, length, 1, sample->values);
    for (size_t k = 0; k < 24 * (length + 4); k++) {
        bool is_wrong = (k + variant) % 40 == 0, is_one = ((int8_t)sample->values[k] > 0) != is_wrong;
        sample->values[k] = is_one ? 127 : 0x80;
        sample->cost += is_wrong ? (is_one ? 127 : 128) : 0;
    }
}

/* The message with a multiple of the CRC's polynomial laid over it from one byte on: both CRCs stay as they are. */
static void lay_unseen(uint8_t *message, size_t byte)
{
    message[byte] ^= 0xB2;
    message[byte + 1] ^= 0xF0;
}

/* True where the first message's whitened bits come before the second's: 0 at the first bit where they differ. */
static bool comes_first(const struct sample *one, const struct sample *other)
{
    uint8_t a[MODEL_MOST_BITS], b[MODEL_MOST_BITS];
    size_t count = model_payload(one->message, one->length, one->mode, a);
    model_payload(other->message, other->length, other->mode, b);
    model_whiten(a, count);
    model_whiten(b, count);
    return memcmp(a, b, count) < 0;
}

/* Two frames that both pass their checks are equally near: the 22 coded bits where they differ are not heard, and one other is heard wrong. Every
 * third string differs from either in at least 15 coded bits, so in at least 4 of those that are heard. */
static void make_tie(struct sample *sample, size_t length, size_t variant)
{
    static struct sample other;
    bool is_one_wrong = false;
    make_clean(sample, length, variant);
    other = *sample;
    lay_unseen(other.message, 3 + 7 * length % (length - 8));
    make_frame(&other);
    model_heard(sample->frame, length, 1, sample->values);
    model_heard(other.frame, length, 1, other.values);
    for (size_t k = 0; k < 24 * (length + 4); k++)
        if (sample->values[k] != other.values[k]) {
            sample->values[k] = 0;
        } else if (!is_one_wrong) {
            sample->values[k] = (uint8_t)-sample->values[k];
            is_one_wrong = true;
        }
    sample->cost = 1;
    if (!comes_first(sample, &other))
        memcpy(sample->message, other.message, length);
}

static void check_build(const struct sample *sample, size_t spare, enum guarded_layout layout)
{
    guarded_lay_copy(&lent.message, sample->message, sample->length, layout);
    guarded_lay(&lent.frame, GLOAM_FRAME_SIZE(sample->length) + spare, layout, 0xEE);
    gloam_written answer = call_build(&lent, sample->length, sample->mode);
    CHECK_NUMBER("refusal", GLOAM_DONE, answer.refusal);
    size_t symbols = 0;
    while (symbols < GLOAM_FRAME_SIZE(sample->length) && lent.frame.bytes[symbols] <= 1)
        symbols++;
    CHECK_NUMBER("symbols that are 0 or 1", GLOAM_FRAME_SIZE(sample->length), symbols);
    CHECK_BYTES("frame", sample->frame, lent.frame.bytes, GLOAM_FRAME_SIZE(sample->length));
}

static void check_recover(const struct sample *sample, size_t spare, enum guarded_layout layout)
{
    guarded_lay_copy(&lent.marks, sample->marks, GLOAM_MARKS_SIZE(sample->length), layout);
    guarded_lay_copy(&lent.values, sample->values, GLOAM_VALUES_SIZE(sample->length), layout);
    guarded_lay(&lent.message, sample->length + spare, layout, 0xEE);
    gloam_recovered answer = call_recover(&lent, sample->length);
    CHECK_NUMBER("refusal", GLOAM_DONE, answer.refusal);
    CHECK_NUMBER("mode", sample->mode, answer.mode);
    CHECK_NUMBER("cost", sample->cost, answer.cost);
    CHECK_BYTES("message", sample->message, lent.message.bytes, sample->length);
}

static void check_capture_write(const struct sample *sample, size_t spare, enum guarded_layout layout)
{
    guarded_lay_copy(&lent.marks, sample->marks, GLOAM_MARKS_SIZE(sample->length), layout);
    guarded_lay_copy(&lent.values, sample->values, GLOAM_VALUES_SIZE(sample->length), layout);
    guarded_lay(&lent.capture, GLOAM_CAPTURE_SIZE(sample->length) + spare, layout, 0xEE);
    gloam_written answer = call_capture_write(&lent, sample->length);
    CHECK_NUMBER("refusal", GLOAM_DONE, answer.refusal);
    CHECK_BYTES("capture", sample->capture, lent.capture.bytes, GLOAM_CAPTURE_SIZE(sample->length));
}

static void check_capture_read(const struct sample *sample, size_t spare, enum guarded_layout layout)
{
    guarded_lay_copy(&lent.capture, sample->capture, GLOAM_CAPTURE_SIZE(sample->length), layout);
    guarded_lay(&lent.marks, GLOAM_MARKS_SIZE(sample->length) + spare, layout, 0xEE);
    guarded_lay(&lent.values, GLOAM_VALUES_SIZE(sample->length) + spare, layout, 0xEE);
    gloam_read answer = call_capture_read(&lent);
    CHECK_NUMBER("refusal", GLOAM_DONE, answer.refusal);
    CHECK_NUMBER("length", sample->length, answer.length);
    CHECK_BYTES("marks", sample->marks, lent.marks.bytes, GLOAM_MARKS_SIZE(sample->length));
    CHECK_BYTES("values", sample->values, lent.values.bytes, GLOAM_VALUES_SIZE(sample->length));
}

static size_t next_length(size_t length)
{
    return length + (is_short && length >= 24 && length <= 240 ? 36 : 1);
}

typedef void make_sample(struct sample *sample, size_t length, size_t variant);
typedef void check_sample(const struct sample *sample, size_t spare, enum guarded_layout layout);

static void every_length(const char *name, make_sample *make, check_sample *check, enum guarded_layout layout)
{
    static const size_t spares[] = {0, 1, 38};
    static struct sample sample;
    check_group("%s at %s, %s", name, is_short ? "some lengths" : "every length", guarded_layout_name(layout));
    for (size_t length = GLOAM_LEAST_LENGTH; length <= GLOAM_MOST_LENGTH; length = next_length(length))
        for (size_t k = 0; k < sizeof spares / sizeof *spares; k++) {
            check_case("length %zu, %zu bytes to spare", length, spares[k]);
            make(&sample, length, length + k);
            model_capture(length, sample.marks, sample.values, sample.capture);
            check(&sample, spares[k], layout);
        }
}

static void every_operation(enum guarded_layout layout)
{
    every_length("build", make_clean, check_build, layout);
    every_length("recovery of a clean frame", make_clean, check_recover, layout);
    every_length("recovery with noise and a third lost", make_noisy, check_recover, layout);
    every_length("recovery of the loudest values", make_loud, check_recover, layout);
    every_length("recovery of a tie", make_tie, check_recover, layout);
    every_length("capture writing", make_noisy, check_capture_write, layout);
    every_length("capture reading", make_noisy, check_capture_read, layout);
}

int main(int argc, char **argv)
{
    is_short = called_short(argc, argv);
    guarded_watch();
    lent_make(&lent);
    for (enum guarded_layout layout = first_layout(is_short); layout <= last_layout(is_short); layout++)
        every_operation(layout);
    return check_end();
}
