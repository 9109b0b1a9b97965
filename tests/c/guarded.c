#include "guarded.h"

#include "check.h"

#include <inttypes.h>
#include <signal.h>
#include <stdio.h>
#include <stdlib.h>
#include <string.h>
#include <sys/mman.h>
#include <unistd.h>

enum { MOST_BUFFERS = 16, AROUND = 0x3C, OWN_STACK = 65536 };

static struct guarded *known[MOST_BUFFERS];
static size_t known_count;

static void must(bool good, const char *what)
{
    if (good)
        return;
    perror(what);
    exit(2);
}

static size_t page_size(void)
{
    return (size_t)sysconf(_SC_PAGESIZE);
}

const char *guarded_layout_name(enum guarded_layout layout)
{
    static const char *const names[] = {"against the page after", "against the page before", "from malloc"};
    return names[layout];
}

void guarded_make(struct guarded *buffer, const char *name, size_t most)
{
    size_t page = page_size(), size = (most / page + 1) * page;
    uint8_t *map = mmap(NULL, size + 2 * page, PROT_NONE, MAP_PRIVATE | MAP_ANONYMOUS, -1, 0);
    must(map != MAP_FAILED, "mmap");
    must(mprotect(map + page, size, PROT_READ | PROT_WRITE) == 0, "mprotect");
    memset(buffer, 0, sizeof *buffer);
    buffer->name = name;
    buffer->pages = map + page;
    buffer->pages_size = size;
    buffer->before = malloc(size);
    must(buffer->before != NULL && known_count < MOST_BUFFERS, "room for the tests' own copies");
    known[known_count++] = buffer;
}

static void from_malloc(struct guarded *buffer, size_t size)
{
    buffer->bytes = buffer->around = malloc(size);
    must(buffer->bytes != NULL, "malloc");
    buffer->around_size = size;
}

static void within_pages(struct guarded *buffer, size_t size, bool at_end)
{
    buffer->around = buffer->pages;
    buffer->around_size = buffer->pages_size;
    buffer->bytes = at_end ? buffer->pages + buffer->pages_size - size : buffer->pages;
}

static bool is_from_malloc(const struct guarded *buffer)
{
    return buffer->around != NULL && buffer->around != buffer->pages;
}

void guarded_lay(struct guarded *buffer, size_t size, enum guarded_layout layout, uint8_t fill)
{
    must(size <= buffer->pages_size, "a buffer larger than its room");
    if (is_from_malloc(buffer))
        free(buffer->around);
    if (layout == GUARDED_MALLOC)
        from_malloc(buffer, size);
    else
        within_pages(buffer, size, layout == GUARDED_PAGE_AFTER);
    memset(buffer->around, AROUND, buffer->around_size);
    memset(buffer->bytes, fill, size);
    buffer->size = size;
}

void guarded_lay_copy(struct guarded *buffer, const uint8_t *from, size_t size, enum guarded_layout layout)
{
    guarded_lay(buffer, size, layout, 0);
    memcpy(buffer->bytes, from, size);
}

static void protect(struct guarded *buffer, int how)
{
    if (!is_from_malloc(buffer))
        must(mprotect(buffer->pages, buffer->pages_size, how) == 0, "mprotect");
}

void guarded_lend_out(struct guarded *buffer)
{
    memcpy(buffer->before, buffer->around, buffer->around_size);
}

void guarded_lend_in(struct guarded *buffer)
{
    guarded_lend_out(buffer);
    protect(buffer, PROT_READ);
}

bool guarded_take_back(struct guarded *buffer, size_t written)
{
    size_t start = buffer->bytes == NULL ? 0 : (size_t)(buffer->bytes - buffer->around), end = start + written;
    protect(buffer, PROT_READ | PROT_WRITE);
    return written <= buffer->size && memcmp(buffer->around, buffer->before, start) == 0 &&
           memcmp(buffer->around + end, buffer->before + end, buffer->around_size - end) == 0;
}

static void touched(int signal, siginfo_t *info, void *context)
{
    char reason[160] = "a byte outside every lent buffer was touched";
    size_t page = page_size();
    (void)signal;
    (void)context;
    for (size_t k = 0; k < known_count; k++) {
        const struct guarded *buffer = known[k];
        uintptr_t at = (uintptr_t)info->si_addr, pages = (uintptr_t)buffer->pages;
        if (at < pages - page || at >= pages + buffer->pages_size + page)
            continue;
        bool inside = at >= pages && at < pages + buffer->pages_size;
        snprintf(reason, sizeof reason, "%s: %s, at byte %" PRIdPTR " of %zu", buffer->name,
                 inside ? "an input was written to" : "touched outside what was lent", (intptr_t)(at - (uintptr_t)buffer->bytes), buffer->size);
    }
    check_stop(reason);
}

void guarded_watch(void)
{
    stack_t stack = {.ss_sp = malloc(OWN_STACK), .ss_size = OWN_STACK};
    struct sigaction action;
    memset(&action, 0, sizeof action);
    action.sa_sigaction = touched;
    action.sa_flags = SA_SIGINFO | SA_ONSTACK;
    must(stack.ss_sp != NULL && sigaltstack(&stack, NULL) == 0, "sigaltstack");
    must(sigaction(SIGSEGV, &action, NULL) == 0 && sigaction(SIGBUS, &action, NULL) == 0, "sigaction");
}
