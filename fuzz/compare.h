/* compare.h: what both fuzz targets share: the independent decoder's entries, buffers against guard pages, and the end at a difference. */
#ifndef COMPARE_H
#define COMPARE_H

#include "gloamstrother.h"
#include "guarded.h"

#include <stddef.h>
#include <stdint.h>

/* The same calls of rust/reference, by the same rules. */
gloam_recovered reference_recover(uint64_t length, const uint8_t *marks, size_t marks_size, const uint8_t *values, size_t values_size,
                                  uint8_t *message, size_t message_size);
gloam_read reference_capture_read(const uint8_t *capture, size_t capture_size, uint8_t *marks, size_t marks_size, uint8_t *values,
                                  size_t values_size);

/* The fuzzed bytes, taken from the front; zeros once they are used up. */
struct input {
    const uint8_t *at;
    size_t left;
};

uint8_t take(struct input *input);
uint64_t take_number(struct input *input, unsigned bytes);

/* Ends the run at a difference, which libFuzzer then keeps as a crash. */
void must_be_alike(const char *what, uint64_t ours, uint64_t theirs);
void must_be_kept(struct guarded *buffer, size_t written);
void must_be_alike_bytes(const char *what, const uint8_t *ours, const uint8_t *theirs, size_t size);

int LLVMFuzzerTestOneInput(const uint8_t *data, size_t size);

#endif
