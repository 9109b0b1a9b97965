#include "compare.h"

#include <inttypes.h>
#include <stdio.h>
#include <stdlib.h>

uint8_t take(struct input *input)
{
    if (input->left == 0)
        return 0;
    input->left--;
    return *input->at++;
}

uint64_t take_number(struct input *input, unsigned bytes)
{
    uint64_t number = 0;
    for (unsigned k = 0; k < bytes; k++)
        number = number << 8 | take(input);
    return number;
}

void must_be_alike(const char *what, uint64_t ours, uint64_t theirs)
{
    if (ours == theirs)
        return;
    fprintf(stderr, "DIFFERENT: %s: the archive says %" PRIu64 ", the reference %" PRIu64 "\n", what, ours, theirs);
    abort();
}

void must_be_alike_bytes(const char *what, const uint8_t *ours, const uint8_t *theirs, size_t size)
{
    for (size_t k = 0; k < size; k++) {
        if (ours[k] == theirs[k])
            continue;
        fprintf(stderr, "DIFFERENT: %s, byte %zu of %zu: the archive says %u, the reference %u\n", what, k, size, (unsigned)ours[k],
                (unsigned)theirs[k]);
        abort();
    }
}

void must_be_kept(struct guarded *buffer, size_t written)
{
    if (guarded_take_back(buffer, written))
        return;
    fprintf(stderr, "CHANGED: %s: a byte beyond the %zu written ones\n", buffer->name, written);
    abort();
}
