// header.cpp: the header in C++11, included twice, as the second translation unit of header.c's program.
#include "gloamstrother.h"
#include "gloamstrother.h"

#include <cstring>
#include <type_traits>

static_assert(GLOAM_FRAME_SIZE(20) == 864 && GLOAM_MOST_FRAME_SIZE == 9324, "frame");
static_assert(GLOAM_MARKS_SIZE(20) == 24 && GLOAM_MOST_MARKS_SIZE == 259, "marks");
static_assert(GLOAM_VALUES_SIZE(20) == 576 && GLOAM_MOST_VALUES_SIZE == 6216, "values");
static_assert(GLOAM_CAPTURE_SIZE(20) == 679 && GLOAM_MOST_CAPTURE_SIZE == 7259, "capture");
static_assert(GLOAM_BURST_VALUES == 24 && GLOAM_HEARD == 1 && GLOAM_SILENT == 2 && GLOAM_FAULTY == 3, "bursts");
static_assert(sizeof(gloam_written) == 8 && sizeof(gloam_read) == 8 && sizeof(gloam_recovered) == 16 && sizeof(gloam_quantised) == 12, "answers");
static_assert(std::is_standard_layout<gloam_recovered>::value && std::is_trivial<gloam_recovered>::value, "answers are plain");
static_assert(std::is_standard_layout<gloam_quantised>::value && std::is_trivial<gloam_quantised>::value, "with a float too");

// The prototypes, as a caller may keep them.
static gloam_written (*const build)(uint64_t, uint64_t, const uint8_t *, size_t, uint8_t *, size_t) = gloam_uplink_build;
static gloam_recovered (*const recover)(uint64_t, const uint8_t *, size_t, const uint8_t *, size_t, uint8_t *, size_t) = gloam_uplink_recover;
static gloam_written (*const store)(uint64_t, const uint8_t *, size_t, const uint8_t *, size_t, uint8_t *, size_t) = gloam_capture_write;
static gloam_quantised (*const quantise)(const float *, size_t, uint8_t *, size_t) = gloam_burst_quantise;
static uint32_t (*const version)() = gloam_version;
static gloam_read (*const read_back)(const uint8_t *, size_t, uint8_t *, size_t, uint8_t *, size_t) = gloam_capture_read;

// A message there and back by way of a receiver's numbers and a stored capture; how many answers are wrong.
extern "C" unsigned header_in_cpp()
{
    uint8_t message[20], again[20], frame[GLOAM_FRAME_SIZE(20)], capture[GLOAM_CAPTURE_SIZE(20)];
    uint8_t marks[GLOAM_MARKS_SIZE(20)], values[GLOAM_VALUES_SIZE(20)];
    unsigned wrong = 0;
    std::memset(message, 0x42, sizeof message);
    std::memset(marks, 1, sizeof marks);
    wrong += version() != GLOAM_VERSION;
    wrong += build(20, 1, message, sizeof message, frame, sizeof frame).refusal != GLOAM_DONE;
    for (size_t s = 0; s < sizeof marks; s++) {
        float numbers[GLOAM_BURST_VALUES];
        for (size_t p = 0; p < GLOAM_BURST_VALUES; p++)
            numbers[p] = frame[36 * s + p + (p < 12 ? 0 : 12)] ? 4.5f : -4.5f;
        wrong += quantise(numbers, GLOAM_BURST_VALUES, values + 24 * s, sizeof values - 24 * s).peak != 4.5f;
    }
    for (size_t k = 0; k < sizeof values; k++)
        wrong += values[k] != 5 && values[k] != 251;
    wrong += store(20, marks, sizeof marks, values, sizeof values, capture, sizeof capture).size != sizeof capture;
    wrong += read_back(capture, sizeof capture, marks, sizeof marks, values, sizeof values).length != 20;
    gloam_recovered answer = recover(20, marks, sizeof marks, values, sizeof values, again, sizeof again);
    wrong += answer.refusal != GLOAM_DONE || answer.mode != 1 || answer.cost != 0;
    wrong += std::memcmp(message, again, sizeof message) != 0;
    wrong += std::strcmp(gloam_refusal_text(GLOAM_DONE), "done") != 0;
    return wrong;
}
