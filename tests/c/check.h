/* check.h: checks in groups. A group is one line of a test's output, `ok: ...` or `FAILED: ...`; each check in it that fails prints its
 * file and line, the case it belongs to, what was expected and what was seen. */
#ifndef CHECK_H
#define CHECK_H

#include <stdbool.h>
#include <stddef.h>
#include <stdint.h>

/* The bits of a float. */
uint32_t bits_of(float number);

/* Begins a group and ends the one before it. */
void check_group(const char *format, ...) __attribute__((format(printf, 1, 2)));

/* Says which case the next checks belong to; printed with a check that fails. */
void check_case(const char *format, ...) __attribute__((format(printf, 1, 2)));

/* A line about the group that stands behind its name. */
void check_note(const char *format, ...) __attribute__((format(printf, 1, 2)));

/* Ends the last group and prints `N passed, M failed`; what main returns. */
int check_end(void);

/* Ends the whole test at once, also from a signal: the group fails for this reason. */
void check_stop(const char *reason);

bool check_number(const char *file, int line, const char *what, uint64_t expected, uint64_t seen);
bool check_float(const char *file, int line, const char *what, float expected, float seen);
bool check_bytes(const char *file, int line, const char *what, const uint8_t *expected, const uint8_t *seen, size_t size);

#define CHECK_NUMBER(what, expected, seen) check_number(__FILE__, __LINE__, what, expected, seen)
#define CHECK_FLOAT(what, expected, seen) check_float(__FILE__, __LINE__, what, expected, seen) /* bit by bit: -0 is not +0 */
#define CHECK_BYTES(what, expected, seen, size) check_bytes(__FILE__, __LINE__, what, expected, seen, size)
#define CHECK_TRUE(what, seen) check_number(__FILE__, __LINE__, what, 1, (seen) ? 1 : 0)

#endif
