/* model.h: the sending side of the uplink once more, written from the standard as docs/STANDARD.md has it and sharing nothing with the crates:
 * payload bits, whitening, code, places. What a frame must be, and frames whose checks are wrong on purpose. It decodes nothing. And what
 * becomes of a burst's numbers, by comparing floats alone. */
#ifndef MODEL_H
#define MODEL_H

#include <stddef.h>
#include <stdint.h>

enum { MODEL_MOST_BITS = 26 + 8 * 255 };

/* Where a field begins among the payload bits. */
enum { MODEL_HEADER_CRC = 0, MODEL_PAYLOAD_CRC = 8, MODEL_PSI = 16, MODEL_MESSAGE = 24 };

/* The 26 + 8 length payload bits of a message, each 0 or 1; how many. */
size_t model_payload(const uint8_t *message, size_t length, unsigned mode, uint8_t *bits);

/* Makes the header CRC right for the payload CRC and the PSI that stand in the bits. */
void model_header_again(uint8_t *bits);

/* Whitens payload bits in place, as the coder takes them. */
void model_whiten(uint8_t *bits, size_t count);

/* The frame of any payload bits: 36 (length + 4) symbols. */
void model_frame(const uint8_t *bits, size_t length, uint8_t *frame);

/* A frame heard on the right side everywhere: 24 (length + 4) values of magnitude `strength`, 1 to 127. */
void model_heard(const uint8_t *frame, size_t length, int strength, uint8_t *values);

/* The stored capture of docs/CAPTURE.md: 119 + 28 length bytes. */
void model_capture(size_t length, const uint8_t *marks, const uint8_t *values, uint8_t *capture);

/* What quantising must make of a burst: its 24 values, 1 heard, 2 silent or 3 faulty, and the peak, +0 unless it is heard. */
struct model_burst {
    uint8_t values[24];
    uint32_t finding;
    float peak;
};

/* Of 24 numbers. */
void model_quantise(const float *numbers, struct model_burst *burst);

/* A stream of numbers that is the same in every run; the state must not be 0. */
uint32_t model_random(uint64_t *state);
void model_random_bytes(uint64_t *state, uint8_t *bytes, size_t size);

#endif
