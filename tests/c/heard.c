#include "heard.h"

#include "model.h"

#include <string.h>

static void spoil_bits(uint8_t *bits, size_t count, unsigned spoilt)
{
    bits[MODEL_MESSAGE + 76] ^= (spoilt & BAD_PAYLOAD_CRC) != 0;
    bits[count - 1] ^= (spoilt & BAD_MODE_BIT) != 0;
    if (spoilt & BAD_PSI) {
        bits[MODEL_PSI + 7] ^= 1;
        model_header_again(bits);
    }
    bits[MODEL_HEADER_CRC + 3] ^= (spoilt & BAD_HEADER_CRC) != 0;
}

static void spoil_values(struct heard *heard, unsigned spoilt)
{
    if (spoilt & (ALL_ZERO | ONE_VALUE))
        memset(heard->values, 0, sizeof heard->values);
    if (spoilt & ONE_VALUE)
        heard->values[0] = 0x80;
    for (size_t s = 0; s < heard->length + 4 && spoilt & HEARD_ZERO; s++) {
        heard->marks[s] = s % 2 == 0;
        if (heard->marks[s])
            memset(heard->values + 24 * s, 0, 24);
    }
}

static void spoil_marks(struct heard *heard, unsigned spoilt)
{
    if (spoilt & ALL_LOST)
        memset(heard->marks, 0, sizeof heard->marks);
    if (spoilt & FIRST_MARK_2)
        heard->marks[0] = 2;
    if (spoilt & LAST_MARK_255)
        heard->marks[heard->length + 3] = 255;
}

void heard_make(struct heard *heard, size_t length, unsigned spoilt)
{
    uint8_t bits[MODEL_MOST_BITS], frame[GLOAM_MOST_FRAME_SIZE];
    memset(heard, 1, sizeof *heard);
    heard->length = length;
    heard->mode = 1;
    for (size_t k = 0; k < length; k++)
        heard->message[k] = (uint8_t)(3 + 7 * k);
    size_t count = model_payload(heard->message, length, heard->mode, bits);
    spoil_bits(bits, count, spoilt);
    model_frame(bits, length, frame);
    model_heard(frame, length, 9, heard->values);
    spoil_values(heard, spoilt);
    spoil_marks(heard, spoilt);
}

void heard_capture(const struct heard *heard, uint8_t *capture)
{
    model_capture(heard->length, heard->marks, heard->values, capture);
}
