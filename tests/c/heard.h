/* heard.h: what is heard of one frame, clean or spoilt in a way that leads to one refusal for certain. */
#ifndef HEARD_H
#define HEARD_H

#include "gloamstrother.h"

/* Ways to spoil it, to be joined by |. A check that is wrong is wrong before coding, and the frame is then heard clean. */
enum {
    FIRST_MARK_2 = 1,
    LAST_MARK_255 = 2,
    ALL_LOST = 4,          /* every mark is 0, the values stay */
    ALL_ZERO = 8,          /* every value is 0, the marks stay */
    HEARD_ZERO = 16,       /* every second sub-packet is lost, and the others' values are 0 */
    ONE_VALUE = 32,        /* the first value is -128 and all others are 0, so that the string of zeros is nearest */
    BAD_HEADER_CRC = 64,   /* one bit of it */
    BAD_PSI = 128,         /* one bit of it, and the header CRC is right for that PSI */
    BAD_PAYLOAD_CRC = 256, /* one bit of the message */
    BAD_MODE_BIT = 512     /* one bit of the mode, which the payload CRC covers */
};

struct heard {
    size_t length;
    uint32_t mode;
    uint8_t message[GLOAM_MOST_MESSAGE_SIZE];
    uint8_t marks[GLOAM_MOST_MARKS_SIZE + 1], values[GLOAM_MOST_VALUES_SIZE + 24];
};

/* Of a fixed message of `length` bytes, mode 1. */
void heard_make(struct heard *heard, size_t length, unsigned spoilt);

/* Its capture: GLOAM_CAPTURE_SIZE(length) bytes. */
void heard_capture(const struct heard *heard, uint8_t *capture);

#endif
