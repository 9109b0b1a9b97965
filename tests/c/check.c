#include "check.h"

#include <inttypes.h>
#include <stdarg.h>
#include <stdio.h>
#include <string.h>
#include <unistd.h>

/* So many failures of one group are printed, so that a fault everywhere stays readable. */
enum { SHOWN = 4 };

static char group[160], test_case[160], note[160];
static unsigned long checks, wrong;
static unsigned passed, failed;

static void end_group(void)
{
    if (group[0] == 0)
        return;
    bool good = wrong == 0 && checks > 0;
    if (good)
        printf("ok: %s%s (%lu checks)\n", group, note, checks);
    else
        printf("FAILED: %s%s (%lu of %lu checks)\n", group, note, wrong, checks);
    fflush(stdout);
    passed += good;
    failed += !good;
    group[0] = test_case[0] = note[0] = 0;
    checks = wrong = 0;
}

void check_group(const char *format, ...)
{
    va_list rest;
    end_group();
    va_start(rest, format);
    vsnprintf(group, sizeof group, format, rest);
    va_end(rest);
}

void check_case(const char *format, ...)
{
    va_list rest;
    va_start(rest, format);
    vsnprintf(test_case, sizeof test_case, format, rest);
    va_end(rest);
}

void check_note(const char *format, ...)
{
    va_list rest;
    va_start(rest, format);
    vsnprintf(note, sizeof note, format, rest);
    va_end(rest);
}

int check_end(void)
{
    end_group();
    printf("%u passed, %u failed\n", passed, failed);
    fflush(stdout);
    return failed == 0 ? 0 : 1;
}

void check_stop(const char *reason)
{
    printf("%s: %s\n", test_case, reason);
    checks++;
    wrong++;
    check_end();
    _exit(1);
}

/* Counts one check; true where it failed and is to be printed, and then where it stands is printed already. */
static bool failed_and_shown(const char *file, int line, bool good)
{
    checks++;
    wrong += !good;
    if (good || wrong > SHOWN)
        return false;
    printf("%s:%d: %s: ", file, line, test_case);
    return true;
}

bool check_number(const char *file, int line, const char *what, uint64_t expected, uint64_t seen)
{
    if (failed_and_shown(file, line, expected == seen))
        printf("%s: expected %" PRIu64 ", seen %" PRIu64 "\n", what, expected, seen);
    return expected == seen;
}

uint32_t bits_of(float number)
{
    uint32_t bits;
    memcpy(&bits, &number, sizeof bits);
    return bits;
}

bool check_float(const char *file, int line, const char *what, float expected, float seen)
{
    bool good = bits_of(expected) == bits_of(seen);
    if (failed_and_shown(file, line, good))
        printf("%s: expected %a (bits %08" PRIx32 "), seen %a (bits %08" PRIx32 ")\n", what, (double)expected, bits_of(expected), (double)seen,
               bits_of(seen));
    return good;
}

bool check_bytes(const char *file, int line, const char *what, const uint8_t *expected, const uint8_t *seen, size_t size)
{
    size_t at = 0;
    while (at < size && expected[at] == seen[at])
        at++;
    if (failed_and_shown(file, line, at == size))
        printf("%s: byte %zu of %zu: expected %u, seen %u\n", what, at, size, (unsigned)expected[at], (unsigned)seen[at]);
    return at == size;
}
