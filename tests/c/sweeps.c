/* sweeps.c: refusals over whole ranges: every size of every buffer around the right one, every length, every mark, every byte of a capture's form,
 * every count of numbers against every room, and sizes and counts of 2^32 and more, whose low bits alone look right. */
#include "calls.h"
#include "check.h"
#include "heard.h"

#include <stdio.h>
#include <string.h>
#include <sys/mman.h>

enum { LENGTH = 20, MESSAGE = 20, FRAME = 864, MARKS = 24, VALUES = 576, CAPTURE = 679, BURST = 24 };

static struct lent lent;
static struct heard heard;
static uint8_t message[MESSAGE + 1], capture[CAPTURE + 1];
static enum guarded_layout layout;
static bool is_short;

/* A step through a range: valgrind gets fewer, among them always those around the right size. */
static size_t next_size(size_t size, size_t right)
{
    return size + (is_short && (size + 20 < right || size > right + 2) ? 17 : 1);
}

static uint32_t build(uint64_t length, size_t message_size, size_t room)
{
    check_case("length %llu, message of %zu, frame of %zu", (unsigned long long)length, message_size, room);
    guarded_lay(&lent.message, message_size, layout, 0x77);
    guarded_lay(&lent.frame, room, layout, 0xEE);
    return call_build(&lent, length, 2).refusal;
}

static void lay_heard(uint64_t length, size_t marks_size, size_t values_size, struct guarded *room, size_t room_size)
{
    check_case("length %llu, marks of %zu, values of %zu, %s of %zu", (unsigned long long)length, marks_size, values_size, room->name, room_size);
    guarded_lay_copy(&lent.marks, heard.marks, marks_size, layout);
    guarded_lay_copy(&lent.values, heard.values, values_size, layout);
    guarded_lay(room, room_size, layout, 0xEE);
}

static uint32_t recover(uint64_t length, size_t marks_size, size_t values_size, size_t room)
{
    lay_heard(length, marks_size, values_size, &lent.message, room);
    return call_recover(&lent, length).refusal;
}

static uint32_t capture_write(uint64_t length, size_t marks_size, size_t values_size, size_t room)
{
    lay_heard(length, marks_size, values_size, &lent.capture, room);
    return call_capture_write(&lent, length).refusal;
}

static uint32_t capture_read(size_t capture_size, size_t marks_size, size_t values_size)
{
    guarded_lay_copy(&lent.capture, capture, capture_size, layout);
    guarded_lay(&lent.marks, marks_size, layout, 0xEE);
    guarded_lay(&lent.values, values_size, layout, 0xEE);
    return call_capture_read(&lent).refusal;
}

static void every_size_of_build(void)
{
    for (size_t size = 0; size <= MESSAGE + 12; size = next_size(size, MESSAGE))
        CHECK_NUMBER("refusal", size == MESSAGE ? 0 : 2, build(LENGTH, size, FRAME));
    for (size_t room = 0; room <= FRAME + 40; room = next_size(room, FRAME))
        CHECK_NUMBER("refusal", room < FRAME ? 3 : 0, build(LENGTH, MESSAGE, room));
}

/* Recovery and capture writing take the same marks and values, and differ in the room that they need. */
static void every_size_of_heard(uint32_t (*call)(uint64_t, size_t, size_t, size_t), size_t needed)
{
    for (size_t size = 0; size <= MARKS + 12; size = next_size(size, MARKS))
        CHECK_NUMBER("refusal", size == MARKS ? 0 : 2, call(LENGTH, size, VALUES, needed));
    for (size_t size = 0; size <= VALUES + 30; size = next_size(size, VALUES))
        CHECK_NUMBER("refusal", size == VALUES ? 0 : 2, call(LENGTH, MARKS, size, needed));
    for (size_t room = 0; room <= needed + 30; room = next_size(room, needed))
        CHECK_NUMBER("refusal", room < needed ? 3 : 0, call(LENGTH, MARKS, VALUES, room));
}

static void every_size_of_recover(void)
{
    every_size_of_heard(recover, MESSAGE);
}

static void every_size_of_capture_write(void)
{
    every_size_of_heard(capture_write, CAPTURE);
}

static void every_size_of_capture_read(void)
{
    check_case("a capture cut, or one byte longer");
    for (size_t size = 0; size <= CAPTURE + 1; size = next_size(size, CAPTURE))
        CHECK_NUMBER("refusal", size == CAPTURE ? 0 : 10, capture_read(size, MARKS, VALUES));
    check_case("room for the marks");
    for (size_t room = 0; room <= MARKS + 12; room = next_size(room, MARKS))
        CHECK_NUMBER("refusal", room < MARKS ? 3 : 0, capture_read(CAPTURE, room, VALUES));
    check_case("room for the values");
    for (size_t room = 0; room <= VALUES + 30; room = next_size(room, VALUES))
        CHECK_NUMBER("refusal", room < VALUES ? 3 : 0, capture_read(CAPTURE, MARKS, room));
}

static uint32_t quantise(size_t count, size_t room)
{
    check_case("%zu numbers, values of %zu", count, room);
    guarded_lay(&lent.numbers, sizeof(float) * count, layout, 0x42);
    guarded_lay(&lent.values, room, layout, 0xEE);
    return call_quantise(&lent).refusal;
}

static void every_size_of_quantise(void)
{
    for (size_t count = 0; count <= 50; count = next_size(count, BURST))
        for (size_t room = 0; room <= 50; room = next_size(room, BURST))
            CHECK_NUMBER("refusal", count != BURST ? 2 : room < BURST ? 3 : 0, quantise(count, room));
}

/* Buffers are right for length 20 alone: another length that can be is refused for them, one that cannot be for itself. */
static void one_length(uint64_t length)
{
    uint32_t number = length < 20 || length > 255 ? 1 : length == LENGTH ? 0 : 2;
    CHECK_NUMBER("build's refusal", number, build(length, MESSAGE, FRAME));
    CHECK_NUMBER("recover's refusal", number, recover(length, MARKS, VALUES, MESSAGE));
    CHECK_NUMBER("capture writing's refusal", number, capture_write(length, MARKS, VALUES, CAPTURE));
}

static void every_length(void)
{
    for (uint64_t length = 0; length <= 600; length++)
        one_length(length);
    for (unsigned bit = 8; bit < 64; bit++)
        one_length((UINT64_C(1) << bit) + LENGTH);
    one_length(UINT64_MAX);
    for (unsigned told = 0; told <= 255; told++) {
        capture[3] = (uint8_t)told;
        check_case("a capture for 20 that tells %u", told);
        CHECK_NUMBER("capture reading's refusal", told < 20 ? 1 : told == LENGTH ? 0 : 10, capture_read(CAPTURE, MARKS, VALUES));
    }
    capture[3] = LENGTH;
}

static void one_mark(size_t at, unsigned mark)
{
    uint32_t number = mark > 1 ? 5 : 0;
    heard.marks[at] = capture[7 + at] = (uint8_t)mark;
    CHECK_NUMBER("recover's refusal", number, recover(LENGTH, MARKS, VALUES, MESSAGE));
    CHECK_NUMBER("capture writing's refusal", number, capture_write(LENGTH, MARKS, VALUES, CAPTURE));
    check_case("mark %zu is %u", at, mark);
    CHECK_NUMBER("capture reading's refusal", number, capture_read(CAPTURE, MARKS, VALUES));
    heard.marks[at] = capture[7 + at] = 1;
}

static void every_mark(void)
{
    for (size_t at = 0; at < MARKS; at++)
        for (unsigned mark = 0; mark <= 255; mark += is_short && mark > 2 ? 84 : 1)
            one_mark(at, mark);
}

/* The bytes of a capture that are neither its length, nor marks, nor values. */
static bool is_form(size_t at)
{
    return at < 3 || (at >= 4 && at < 7) || (at >= 7 + MARKS && (at - 7 - MARKS) % 27 < 3);
}

static void every_byte_of_form(void)
{
    for (size_t at = 0; at < CAPTURE; at++) {
        uint8_t right = capture[at];
        for (unsigned value = 0; value <= 255 && is_form(at); value += is_short ? 15 : 1) {
            check_case("byte %zu of a capture is %u", at, value);
            capture[at] = (uint8_t)value;
            CHECK_NUMBER("refusal", value == right ? 0 : 10, capture_read(CAPTURE, MARKS, VALUES));
        }
        capture[at] = right;
    }
}

#define MUCH UINT64_C(0x100000000)

/* A count of numbers that is not 24, with room enough. */
static uint32_t quantise_much(const uint8_t *numbers, size_t count)
{
    uint8_t values[BURST];
    return gloam_burst_quantise((const float *)(const void *)numbers, count, values, BURST).refusal;
}

/* Real memory of more than 2^32 bytes, hardly any of it ever touched. Its start is right for length 20. */
static void check_much(uint8_t *much)
{
    uint8_t frame[FRAME], other[VALUES] = {0}, few[MARKS] = {0};
    float numbers[BURST] = {1};
    check_case("sizes that are right in their low 32 bits");
    CHECK_NUMBER("build, message", 2, gloam_uplink_build(LENGTH, 0, much, MUCH + MESSAGE, frame, FRAME).refusal);
    CHECK_NUMBER("recover, marks", 2, gloam_uplink_recover(LENGTH, much, MUCH + MARKS, heard.values, VALUES, frame, FRAME).refusal);
    CHECK_NUMBER("recover, values", 2, gloam_uplink_recover(LENGTH, heard.marks, MARKS, much, MUCH + VALUES, frame, FRAME).refusal);
    CHECK_NUMBER("capture writing, marks", 2, gloam_capture_write(LENGTH, much, MUCH + MARKS, heard.values, VALUES, frame, FRAME).refusal);
    CHECK_NUMBER("capture writing, values", 2, gloam_capture_write(LENGTH, heard.marks, MARKS, much, MUCH + VALUES, frame, FRAME).refusal);
    memcpy(much, capture, CAPTURE);
    CHECK_NUMBER("capture reading, capture", 10, gloam_capture_read(much, MUCH + CAPTURE, few, MARKS, other, VALUES).refusal);
    CHECK_NUMBER("quantising, bytes of the numbers", 2, quantise_much(much, MUCH / sizeof(float) + BURST));
    check_case("rooms that are too short in their low 32 bits alone");
    CHECK_NUMBER("build, frame", FRAME, gloam_uplink_build(LENGTH, 0, message, MESSAGE, much, MUCH + 1).size);
    CHECK_NUMBER("recover, message", LENGTH, gloam_uplink_recover(LENGTH, heard.marks, MARKS, heard.values, VALUES, much, MUCH + 1).length);
    CHECK_NUMBER("capture writing, capture", CAPTURE, gloam_capture_write(LENGTH, heard.marks, MARKS, heard.values, VALUES, much, MUCH + 1).size);
    CHECK_NUMBER("capture reading, marks", LENGTH, gloam_capture_read(capture, CAPTURE, much, MUCH + 1, other, VALUES).length);
    CHECK_NUMBER("capture reading, values", LENGTH, gloam_capture_read(capture, CAPTURE, few, MARKS, much, MUCH + 1).length);
    CHECK_NUMBER("quantising, values", GLOAM_HEARD, gloam_burst_quantise(numbers, BURST, much, MUCH + 1).finding);
}

static void check_many_numbers(uint8_t *much)
{
    check_case("counts that are right in their low 32 bits");
    CHECK_NUMBER("quantising, numbers", 2, quantise_much(much, MUCH + BURST));
}

static void with_much(const char *name, uint64_t bytes, void (*check)(uint8_t *much))
{
    size_t size = bytes + 4096;
    uint8_t *much = mmap(NULL, size, PROT_READ | PROT_WRITE, MAP_PRIVATE | MAP_ANONYMOUS | MAP_NORESERVE, -1, 0);
    if (much == MAP_FAILED) {
        printf("%zu bytes of address space cannot be had here, so %s were not tried and nothing is counted for them\n", size, name);
        return;
    }
    check_group("%s", name);
    memset(much, 1, VALUES);
    check(much);
    munmap(much, size);
}

static void in_each_layout(const char *name, void (*sweep)(void))
{
    check_group("%s", name);
    for (layout = first_layout(is_short); layout <= last_layout(is_short); layout++)
        sweep();
}

int main(int argc, char **argv)
{
    is_short = called_short(argc, argv);
    guarded_watch();
    lent_make(&lent);
    heard_make(&heard, LENGTH, 0);
    heard_capture(&heard, capture);
    in_each_layout("build: every size", every_size_of_build);
    in_each_layout("recover: every size", every_size_of_recover);
    in_each_layout("capture writing: every size", every_size_of_capture_write);
    in_each_layout("capture reading: every size", every_size_of_capture_read);
    in_each_layout("quantising: every count and every room", every_size_of_quantise);
    in_each_layout("every length", every_length);
    in_each_layout("every mark", every_mark);
    in_each_layout("every byte of a capture's form", every_byte_of_form);
    if (!is_short) {
        with_much("sizes of 2^32 and more", MUCH, check_much);
        with_much("counts of 2^32 and more", sizeof(float) * MUCH, check_many_numbers);
    }
    return check_end();
}
