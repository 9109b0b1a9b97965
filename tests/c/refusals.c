/* refusals.c: every refusal's number of every operation, alone and where several hold at once, so that the order is seen. The
 * tables are in refusal_cases.h; each number of an operation is one group. What a refusal must leave alone is checked with each call: see calls.h. */
#include "calls.h"
#include "check.h"
#include "heard.h"
#include "refusal_cases.h"

#include <string.h>

enum { MOST_NUMBER = 10 };
#define COUNT(table) (sizeof(table) / sizeof *(table))

static struct lent lent;
static bool is_short;

static uint32_t run_build(size_t at, enum guarded_layout layout, bool null)
{
    const struct build_case *c = &build_cases[at];
    guarded_lay(&lent.message, c->message_size, layout, 0x5A);
    guarded_lay(&lent.frame, c->frame_size, layout, 0xEE);
    if (null) {
        lent_empty_as_null(&lent.message);
        lent_empty_as_null(&lent.frame);
    }
    return call_build(&lent, c->length, c->mode).refusal;
}

static void lay_heard(const struct heard_case *c, struct guarded *room, enum guarded_layout layout, bool null)
{
    static struct heard heard;
    heard_make(&heard, c->sent, c->spoilt);
    guarded_lay_copy(&lent.marks, heard.marks, c->marks_size, layout);
    guarded_lay_copy(&lent.values, heard.values, c->values_size, layout);
    guarded_lay(room, c->room, layout, 0xEE);
    if (null) {
        lent_empty_as_null(&lent.marks);
        lent_empty_as_null(&lent.values);
        lent_empty_as_null(room);
    }
}

static uint32_t run_recover(size_t at, enum guarded_layout layout, bool null)
{
    lay_heard(&recover_cases[at], &lent.message, layout, null);
    return call_recover(&lent, recover_cases[at].length).refusal;
}

static uint32_t run_write(size_t at, enum guarded_layout layout, bool null)
{
    lay_heard(&write_cases[at], &lent.capture, layout, null);
    return call_capture_write(&lent, write_cases[at].length).refusal;
}

static uint32_t run_read(size_t at, enum guarded_layout layout, bool null)
{
    const struct read_case *c = &read_cases[at];
    static uint8_t capture[GLOAM_MOST_CAPTURE_SIZE + 1];
    static struct heard heard;
    heard_make(&heard, c->length, 0);
    memset(capture, 0, sizeof capture);
    heard_capture(&heard, capture);
    for (size_t k = 0; k < COUNT(c->changes); k++)
        if (c->changes[k].at > 0 || c->changes[k].value > 0)
            capture[c->changes[k].at] = c->changes[k].value;
    guarded_lay_copy(&lent.capture, capture, c->capture_size, layout);
    guarded_lay(&lent.marks, c->marks_size, layout, 0xEE);
    guarded_lay(&lent.values, c->values_size, layout, 0xEE);
    if (null) {
        lent_empty_as_null(&lent.capture);
        lent_empty_as_null(&lent.marks);
        lent_empty_as_null(&lent.values);
    }
    return call_capture_read(&lent).refusal;
}

static uint32_t run_quantise(size_t at, enum guarded_layout layout, bool null)
{
    const struct quantise_case *c = &quantise_cases[at];
    guarded_lay(&lent.numbers, sizeof(float) * c->numbers_count, layout, c->fill);
    guarded_lay(&lent.values, c->room, layout, 0xEE);
    if (null) {
        lent_empty_as_null(&lent.numbers);
        lent_empty_as_null(&lent.values);
    }
    return call_quantise(&lent).refusal;
}

struct operation {
    const char *name;
    uint32_t (*run)(size_t at, enum guarded_layout layout, bool null);
    const struct expected *first;
    size_t count, stride;
};

static const struct operation operations[] = {
    {"build", run_build, &build_cases[0].expected, COUNT(build_cases), sizeof *build_cases},
    {"recover", run_recover, &recover_cases[0].expected, COUNT(recover_cases), sizeof *recover_cases},
    {"capture writing", run_write, &write_cases[0].expected, COUNT(write_cases), sizeof *write_cases},
    {"capture reading", run_read, &read_cases[0].expected, COUNT(read_cases), sizeof *read_cases},
    {"quantising", run_quantise, &quantise_cases[0].expected, COUNT(quantise_cases), sizeof *quantise_cases},
};

static const struct expected *expected_at(const struct operation *operation, size_t at)
{
    return (const struct expected *)((const char *)operation->first + at * operation->stride);
}

/* One case in every layout, with empty buffers as pointers and as NULL. */
static void run_case(const struct operation *operation, size_t at)
{
    const struct expected *expected = expected_at(operation, at);
    for (enum guarded_layout layout = first_layout(is_short); layout <= last_layout(is_short); layout++)
        for (int null = 0; null <= 1; null++) {
            check_case("%s, %s%s", expected->name, guarded_layout_name(layout), null ? ", NULL where empty" : "");
            CHECK_NUMBER("refusal", expected->number, operation->run(at, layout, null != 0));
        }
}

static void run_number(const struct operation *operation, uint32_t number)
{
    size_t cases = 0;
    for (size_t at = 0; at < operation->count; at++)
        if (expected_at(operation, at)->number == number) {
            if (cases++ == 0)
                check_group(number == 0 ? "%s: done" : "%s: refused %u", operation->name, (unsigned)number);
            run_case(operation, at);
        }
    if (cases > 0)
        check_note(", %zu cases", cases);
}

int main(int argc, char **argv)
{
    is_short = called_short(argc, argv);
    guarded_watch();
    lent_make(&lent);
    for (size_t k = 0; k < COUNT(operations); k++)
        for (uint32_t number = 0; number <= MOST_NUMBER; number++)
            run_number(&operations[k], number);
    return check_end();
}
