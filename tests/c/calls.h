/* calls.h: the five entry points on guarded buffers. Each call lends what was laid, calls, takes it back, and checks what holds for every
 * answer: inputs are as they were, so is every byte beyond what the answer says is written, and a refusal's other fields are 0. */
#ifndef CALLS_H
#define CALLS_H

#include "gloamstrother.h"
#include "guarded.h"

struct lent {
    struct guarded message, frame, marks, values, capture, numbers;
};

/* Room for every length and some more. */
void lent_make(struct lent *lent);

/* Lays `count` floats, given by their bits, so that any NaN arrives as it is. */
void lent_lay_numbers(struct lent *lent, const uint32_t *bits, size_t count, enum guarded_layout layout);

/* A buffer of size 0 is lent as (NULL, 0) from here on, until it is laid again. */
void lent_empty_as_null(struct guarded *buffer);

/* Called on the buffers as they were laid. */
gloam_written call_build(struct lent *lent, uint64_t length, uint64_t mode);
gloam_recovered call_recover(struct lent *lent, uint64_t length);
gloam_written call_capture_write(struct lent *lent, uint64_t length);
gloam_read call_capture_read(struct lent *lent);
gloam_quantised call_quantise(struct lent *lent);

/* True where the program was started with --short: fewer cases, and buffers from malloc, for valgrind. */
bool called_short(int argc, char **argv);

/* The layouts in which each case is run, from the first to the last: against either guard page, or from malloc where it is short. */
enum guarded_layout first_layout(bool is_short);
enum guarded_layout last_layout(bool is_short);

#endif
