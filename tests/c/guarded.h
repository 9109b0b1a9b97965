/* guarded.h: buffers to lend, laid so that a byte too far stops the test.
 *
 * A buffer can touch only one edge of its pages, so each test runs with its buffers flush against the guard page after them, and again flush
 * against the one before them. An input's pages are read-only while it is lent. What is not stopped by the pages is compared afterwards.
 * Under valgrind, which sees each byte of malloc's, buffers of the exact size come from malloc instead. */
#ifndef GUARDED_H
#define GUARDED_H

#include <stdbool.h>
#include <stddef.h>
#include <stdint.h>

enum guarded_layout { GUARDED_PAGE_AFTER, GUARDED_PAGE_BEFORE, GUARDED_MALLOC };

struct guarded {
    const char *name;
    uint8_t *bytes; /* what is lent, and its size */
    size_t size;
    uint8_t *around; /* all that can be written around it, and its size */
    size_t around_size;
    uint8_t *before; /* a copy of that as it was when it was lent */
    uint8_t *pages;  /* between the two guard pages, and its size */
    size_t pages_size;
};

/* The layout's name, for a line of output. */
const char *guarded_layout_name(enum guarded_layout layout);

/* Room for buffers of up to `most` bytes, with a guard page on either side; kept until the program ends. */
void guarded_make(struct guarded *buffer, const char *name, size_t most);

/* Lays a buffer of `size` bytes; all of it, and what is around it, holds `fill`. */
void guarded_lay(struct guarded *buffer, size_t size, enum guarded_layout layout, uint8_t fill);

/* The same, and the buffer holds the bytes at `from`. */
void guarded_lay_copy(struct guarded *buffer, const uint8_t *from, size_t size, enum guarded_layout layout);

/* Before and after the call. What comes back is true where every byte but the first `written` is as it was. */
void guarded_lend_in(struct guarded *buffer);
void guarded_lend_out(struct guarded *buffer);
bool guarded_take_back(struct guarded *buffer, size_t written);

/* From here on, touching a guard page or writing to an input ends the test with a line that says which buffer and where. Once a thread. */
void guarded_watch(void);

#endif
