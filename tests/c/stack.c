/* stack.c: each call in a thread with a stack of 64 kB and a guard page below it, and how many bytes of stack it used: those from the frame of its
 * caller down to the lowest byte that was changed. Held to what the header says is enough. Started with LD_BIND_NOT=1 in its environment the
 * figures have in them what the dynamic loader takes where a call is the program's first. */
#include "check.h"
#include "gloamstrother.h"
#include "guarded.h"
#include "heard.h"

#include <math.h>
#include <pthread.h>
#include <string.h>

enum { STACK = 65536, ROUNDS = 4, KEPT_CLEAR = 128 };

static struct heard heard;
static uint8_t message[GLOAM_MOST_MESSAGE_SIZE], frame[GLOAM_MOST_FRAME_SIZE], capture[GLOAM_MOST_CAPTURE_SIZE];
static uint8_t marks[GLOAM_MOST_MARKS_SIZE], values[GLOAM_MOST_VALUES_SIZE];
static float numbers[GLOAM_BURST_VALUES];

static uint32_t build(size_t length)
{
    return gloam_uplink_build(length, 3, message, length, frame, sizeof frame).refusal;
}

static uint32_t recover(size_t length)
{
    return gloam_uplink_recover(length, heard.marks, length + 4, heard.values, 24 * (length + 4), message, sizeof message).refusal;
}

static uint32_t capture_write(size_t length)
{
    return gloam_capture_write(length, heard.marks, length + 4, heard.values, 24 * (length + 4), capture, sizeof capture).refusal;
}

static uint32_t capture_read(size_t length)
{
    return gloam_capture_read(capture, GLOAM_CAPTURE_SIZE(length), marks, sizeof marks, values, sizeof values).refusal;
}

/* Every burst of a frame: zeros, then with a number more each time, up to a NaN and an infinity. */
static uint32_t quantise(size_t length)
{
    uint32_t refusal = 0;
    memset(numbers, 0, sizeof numbers);
    for (size_t s = 0; s < length + 4; s++) {
        refusal |= gloam_burst_quantise(numbers, GLOAM_BURST_VALUES, values + 24 * s, sizeof values - 24 * s).refusal;
        numbers[s % GLOAM_BURST_VALUES] = s < length ? (float)s - 60.5f : s % 2 == 0 ? NAN : INFINITY;
    }
    return refusal;
}

/* One call, what the header says is enough for it, and what it answered and used. */
struct measured {
    const char *name;
    uint32_t (*call)(size_t length);
    size_t length, enough;
    uint8_t *stack;
    uint32_t refusal;
    size_t used;
};

/* Paints all of the stack that is free but for the few bytes below its own frame: so a figure below some 200 bytes only says that it is small. */
static __attribute__((noinline)) void paint(uint8_t *bottom, uint8_t colour)
{
    volatile uint8_t *end = (uint8_t *)__builtin_frame_address(0) - KEPT_CLEAR;
    for (volatile uint8_t *at = bottom; at < end; at++)
        *at = colour;
}

static __attribute__((noinline)) void one_round(struct measured *measured, uint8_t colour)
{
    uint8_t *here = __builtin_frame_address(0), *lowest = measured->stack;
    paint(measured->stack, colour);
    measured->refusal |= measured->call(measured->length);
    while (lowest < here && *lowest == colour)
        lowest++;
    size_t used = (size_t)(here - lowest);
    measured->used = used > measured->used ? used : measured->used;
}

static void *in_thread(void *argument)
{
    guarded_watch();
    for (unsigned round = 0; round < ROUNDS; round++)
        one_round(argument, round % 2 == 0 ? 0xA5 : 0x5A);
    return NULL;
}

static bool run_in_small_thread(struct measured *measured, struct guarded *stack)
{
    pthread_attr_t attributes;
    pthread_t thread;
    guarded_lay(stack, STACK, GUARDED_PAGE_BEFORE, 0);
    measured->stack = stack->bytes;
    bool started = pthread_attr_init(&attributes) == 0 && pthread_attr_setstack(&attributes, stack->bytes, STACK) == 0 &&
                   pthread_create(&thread, &attributes, in_thread, measured) == 0;
    return started && pthread_join(thread, NULL) == 0;
}

static void measure(struct measured measured, struct guarded *stack)
{
    check_group("stack: %s at length %zu in a thread with %d bytes", measured.name, measured.length, STACK);
    check_case("%s", measured.name);
    heard_make(&heard, measured.length, 0);
    heard_capture(&heard, capture);
    CHECK_TRUE("the thread ran", run_in_small_thread(&measured, stack));
    CHECK_NUMBER("refusal", GLOAM_DONE, measured.refusal);
    CHECK_TRUE("what it used is within what the header says is enough", measured.used <= measured.enough);
    check_note(": used %zu of %zu", measured.used, measured.enough);
}

int main(void)
{
    static struct guarded stack;
    static const size_t lengths[] = {GLOAM_LEAST_LENGTH, GLOAM_MOST_LENGTH};
    guarded_watch();
    guarded_make(&stack, "stack", STACK);
    for (size_t k = 0; k < 2; k++) {
        measure((struct measured){.name = "build", .call = build, .length = lengths[k], .enough = 16384}, &stack);
        measure((struct measured){.name = "recover", .call = recover, .length = lengths[k], .enough = 32768}, &stack);
        measure((struct measured){.name = "capture writing", .call = capture_write, .length = lengths[k], .enough = 4096}, &stack);
        measure((struct measured){.name = "capture reading", .call = capture_read, .length = lengths[k], .enough = 4096}, &stack);
        measure((struct measured){.name = "quantising", .call = quantise, .length = lengths[k], .enough = 4096}, &stack);
    }
    return check_end();
}
