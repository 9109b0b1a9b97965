/* refusal_cases.h: the tables of refusals.c, one an operation: the number that must be answered, and the inputs. For lengths 20 and 255 the
 * message has 20 and 255 bytes, the frame 864 and 9324, the marks 24 and 259, the values 576 and 6216, and the capture 679 and 7259. */
#ifndef REFUSAL_CASES_H
#define REFUSAL_CASES_H

#include "heard.h"

/* Numbers whose low 32 or 8 bits look right. */
#define LOW_32_BITS_20 (UINT64_C(0x100000000) + 20)
#define LOW_32_BITS_0 UINT64_C(0x100000000)
#define LOW_8_BITS_20 (UINT64_C(0x100) + 20)

/* The number that must be answered, and what the case is. */
struct expected {
    uint32_t number;
    const char *name;
};

struct build_case {
    struct expected expected;
    uint64_t length, mode;
    size_t message_size, frame_size;
};

static const struct build_case build_cases[] = {
    {{0, "length 20, mode 0, exact room"}, 20, 0, 20, 864},
    {{0, "length 255, mode 3, exact room"}, 255, 3, 255, 9324},
    {{0, "one byte of room to spare"}, 20, 1, 20, 865},
    {{0, "room for the greatest frame"}, 20, 2, 20, 9324},
    {{1, "length 19"}, 19, 0, 19, 864},
    {{1, "length 256"}, 256, 0, 256, 9360},
    {{1, "length 0, empty buffers"}, 0, 0, 0, 0},
    {{1, "length 2^8 + 20"}, LOW_8_BITS_20, 0, 20, 864},
    {{1, "length 2^32 + 20"}, LOW_32_BITS_20, 0, 20, 864},
    {{1, "length 2^63 + 20"}, UINT64_C(1) << 63 | 20, 0, 20, 864},
    {{1, "length 2^64 - 1"}, UINT64_MAX, 0, 20, 864},
    {{1, "length, message size, room and mode wrong"}, 19, 4, 21, 863},
    {{2, "message one byte short"}, 20, 0, 19, 864},
    {{2, "message one byte long"}, 20, 0, 21, 864},
    {{2, "message of 255 bytes for length 20"}, 20, 0, 255, 864},
    {{2, "no message"}, 20, 0, 0, 864},
    {{2, "message size, room and mode wrong"}, 20, 4, 21, 863},
    {{2, "message size and mode wrong"}, 20, 4, 19, 864},
    {{3, "room one byte short"}, 20, 0, 20, 863},
    {{3, "room one byte short, length 255"}, 255, 0, 255, 9323},
    {{3, "no room"}, 20, 0, 20, 0},
    {{3, "room and mode wrong"}, 20, 4, 20, 863},
    {{4, "mode 4"}, 20, 4, 20, 864},
    {{4, "mode 4, length 255"}, 255, 4, 255, 9324},
    {{4, "mode 255"}, 20, 255, 20, 864},
    {{4, "mode 2^8"}, 20, 256, 20, 864},
    {{4, "mode 2^32"}, 20, LOW_32_BITS_0, 20, 864},
    {{4, "mode 2^64 - 1"}, 20, UINT64_MAX, 20, 864},
};

/* Recovery and capture writing: what is heard is made by heard.h for `sent` bytes and laid in buffers of the sizes given. */
struct heard_case {
    struct expected expected;
    uint64_t length;
    size_t marks_size, values_size, room;
    unsigned spoilt;
    size_t sent;
};

static const struct heard_case recover_cases[] = {
    {{0, "length 20, exact room"}, 20, 24, 576, 20, 0, 20},
    {{0, "length 255, exact room"}, 255, 259, 6216, 255, 0, 255},
    {{0, "one byte of room to spare"}, 20, 24, 576, 21, 0, 20},
    {{1, "length 19"}, 19, 23, 552, 19, 0, 20},
    {{1, "length 256"}, 256, 260, 6240, 256, 0, 255},
    {{1, "length 0, empty buffers"}, 0, 0, 0, 0, 0, 20},
    {{1, "length 2^8 + 20"}, LOW_8_BITS_20, 24, 576, 20, 0, 20},
    {{1, "length 2^32 + 20"}, LOW_32_BITS_20, 24, 576, 20, 0, 20},
    {{1, "length 2^64 - 1"}, UINT64_MAX, 24, 576, 20, 0, 20},
    {{1, "length, sizes, room and a mark wrong"}, 19, 25, 575, 0, FIRST_MARK_2, 20},
    {{2, "marks one byte short"}, 20, 23, 576, 20, 0, 20},
    {{2, "marks one byte long"}, 20, 25, 576, 20, 0, 20},
    {{2, "no marks"}, 20, 0, 576, 20, 0, 20},
    {{2, "values one byte short"}, 20, 24, 575, 20, 0, 20},
    {{2, "values one byte long"}, 20, 24, 577, 20, 0, 20},
    {{2, "no values"}, 20, 24, 0, 20, 0, 20},
    {{2, "neither marks nor values"}, 20, 0, 0, 20, 0, 20},
    {{2, "marks and values for length 21"}, 20, 25, 600, 21, 0, 21},
    {{2, "marks size, room and a mark wrong"}, 20, 25, 576, 19, FIRST_MARK_2, 20},
    {{2, "values size and a mark wrong"}, 20, 24, 577, 20, FIRST_MARK_2, 20},
    {{2, "values size wrong and silence"}, 20, 24, 575, 20, ALL_LOST, 20},
    {{3, "room one byte short"}, 20, 24, 576, 19, 0, 20},
    {{3, "room one byte short, length 255"}, 255, 259, 6216, 254, 0, 255},
    {{3, "no room"}, 20, 24, 576, 0, 0, 20},
    {{3, "room and a mark wrong"}, 20, 24, 576, 19, FIRST_MARK_2, 20},
    {{3, "room wrong and silence"}, 20, 24, 576, 19, ALL_LOST, 20},
    {{3, "room and the header CRC wrong"}, 20, 24, 576, 19, BAD_HEADER_CRC, 20},
    {{5, "first mark 2"}, 20, 24, 576, 20, FIRST_MARK_2, 20},
    {{5, "last mark 255"}, 20, 24, 576, 20, LAST_MARK_255, 20},
    {{5, "last mark 255, length 255"}, 255, 259, 6216, 255, LAST_MARK_255, 255},
    {{5, "last mark wrong, and all else lost"}, 20, 24, 576, 20, LAST_MARK_255 | ALL_LOST, 20},
    {{5, "last mark wrong, and all values 0"}, 20, 24, 576, 20, LAST_MARK_255 | ALL_ZERO, 20},
    {{5, "last mark and the header CRC wrong"}, 20, 24, 576, 20, LAST_MARK_255 | BAD_HEADER_CRC, 20},
    {{6, "all lost"}, 20, 24, 576, 20, ALL_LOST, 20},
    {{6, "all lost, length 255"}, 255, 259, 6216, 255, ALL_LOST, 255},
    {{6, "all values 0"}, 20, 24, 576, 20, ALL_ZERO, 20},
    {{6, "all heard values 0, loud ones lost"}, 20, 24, 576, 20, HEARD_ZERO, 20},
    {{6, "silence and the header CRC wrong"}, 20, 24, 576, 20, ALL_LOST | BAD_HEADER_CRC, 20},
    {{7, "header CRC"}, 20, 24, 576, 20, BAD_HEADER_CRC, 20},
    {{7, "header CRC, length 255"}, 255, 259, 6216, 255, BAD_HEADER_CRC, 255},
    {{7, "header CRC and PSI"}, 20, 24, 576, 20, BAD_HEADER_CRC | BAD_PSI, 20},
    {{7, "header CRC and payload CRC"}, 20, 24, 576, 20, BAD_HEADER_CRC | BAD_PAYLOAD_CRC, 20},
    {{7, "all three"}, 20, 24, 576, 20, BAD_HEADER_CRC | BAD_PSI | BAD_PAYLOAD_CRC, 20},
    {{7, "a single value of -128 is no silence"}, 20, 24, 576, 20, ONE_VALUE, 20},
    {{8, "PSI"}, 20, 24, 576, 20, BAD_PSI, 20},
    {{8, "PSI, length 255"}, 255, 259, 6216, 255, BAD_PSI, 255},
    {{8, "PSI and payload CRC"}, 20, 24, 576, 20, BAD_PSI | BAD_PAYLOAD_CRC, 20},
    {{9, "payload CRC"}, 20, 24, 576, 20, BAD_PAYLOAD_CRC, 20},
    {{9, "payload CRC, length 255"}, 255, 259, 6216, 255, BAD_PAYLOAD_CRC, 255},
    {{9, "a bit of the mode"}, 20, 24, 576, 20, BAD_MODE_BIT, 20},
};

static const struct heard_case write_cases[] = {
    {{0, "length 20, exact room"}, 20, 24, 576, 679, 0, 20},
    {{0, "length 255, exact room"}, 255, 259, 6216, 7259, 0, 255},
    {{0, "one byte of room to spare"}, 20, 24, 576, 680, 0, 20},
    {{0, "all lost"}, 20, 24, 576, 679, ALL_LOST, 20},
    {{1, "length 19"}, 19, 23, 552, 679, 0, 20},
    {{1, "length 256"}, 256, 260, 6240, 7287, 0, 255},
    {{1, "length 0, empty buffers"}, 0, 0, 0, 0, 0, 20},
    {{1, "length 2^8 + 20"}, LOW_8_BITS_20, 24, 576, 679, 0, 20},
    {{1, "length 2^32 + 20"}, LOW_32_BITS_20, 24, 576, 679, 0, 20},
    {{1, "length 2^64 - 1"}, UINT64_MAX, 24, 576, 679, 0, 20},
    {{1, "length, sizes, room and a mark wrong"}, 19, 25, 575, 0, FIRST_MARK_2, 20},
    {{2, "marks one byte short"}, 20, 23, 576, 679, 0, 20},
    {{2, "marks one byte long"}, 20, 25, 576, 679, 0, 20},
    {{2, "no marks"}, 20, 0, 576, 679, 0, 20},
    {{2, "values one byte short"}, 20, 24, 575, 679, 0, 20},
    {{2, "values one byte long"}, 20, 24, 577, 679, 0, 20},
    {{2, "no values"}, 20, 24, 0, 679, 0, 20},
    {{2, "neither marks nor values"}, 20, 0, 0, 679, 0, 20},
    {{2, "values size, room and a mark wrong"}, 20, 24, 577, 678, FIRST_MARK_2, 20},
    {{2, "marks size and a mark wrong"}, 20, 25, 576, 679, FIRST_MARK_2, 20},
    {{3, "room one byte short"}, 20, 24, 576, 678, 0, 20},
    {{3, "room one byte short, length 255"}, 255, 259, 6216, 7258, 0, 255},
    {{3, "no room"}, 20, 24, 576, 0, 0, 20},
    {{3, "room and a mark wrong"}, 20, 24, 576, 678, FIRST_MARK_2, 20},
    {{5, "first mark 2"}, 20, 24, 576, 679, FIRST_MARK_2, 20},
    {{5, "last mark 255"}, 20, 24, 576, 679, LAST_MARK_255, 20},
    {{5, "last mark 255, length 255"}, 255, 259, 6216, 7259, LAST_MARK_255, 255},
};

/* Capture reading: the capture of a clean frame, cut or filled with zeros to its size, and then some bytes of it changed. */
struct read_case {
    struct expected expected;
    size_t length, capture_size, marks_size, values_size;
    struct {
        size_t at;
        uint8_t value;
    } changes[3];
};

static const struct read_case read_cases[] = {
    {{0, "length 20, exact room"}, 20, 679, 24, 576, {{3, 20}}},
    {{0, "length 255, exact room"}, 255, 7259, 259, 6216, {{3, 255}}},
    {{0, "one byte of room to spare"}, 20, 679, 25, 577, {{3, 20}}},
    {{0, "room for the greatest capture"}, 20, 679, 259, 6216, {{3, 20}}},
    {{1, "length 19 and nothing after it"}, 20, 4, 24, 576, {{3, 19}}},
    {{1, "length 0 and nothing after it"}, 20, 4, 24, 576, {{3, 0}}},
    {{1, "length 19 in a capture for 20"}, 20, 679, 24, 576, {{3, 19}}},
    {{1, "length, all the rest, a mark and room wrong"}, 20, 678, 0, 0, {{3, 19}, {4, 9}, {7, 2}}},
    {{3, "marks one byte short"}, 20, 679, 23, 576, {{3, 20}}},
    {{3, "values one byte short"}, 20, 679, 24, 575, {{3, 20}}},
    {{3, "marks one byte short, length 255"}, 255, 7259, 258, 6216, {{3, 255}}},
    {{3, "values one byte short, length 255"}, 255, 7259, 259, 6215, {{3, 255}}},
    {{3, "no marks"}, 20, 679, 0, 576, {{3, 20}}},
    {{3, "no values"}, 20, 679, 24, 0, {{3, 20}}},
    {{3, "neither marks nor values"}, 20, 679, 0, 0, {{3, 20}}},
    {{5, "first mark 2"}, 20, 679, 24, 576, {{7, 2}}},
    {{5, "last mark 255"}, 20, 679, 24, 576, {{30, 255}}},
    {{5, "last mark 255, length 255"}, 255, 7259, 259, 6216, {{265, 255}}},
    {{5, "a mark and the room for marks wrong"}, 20, 679, 23, 576, {{7, 2}}},
    {{5, "a mark and the room for values wrong"}, 20, 679, 24, 575, {{30, 2}}},
    {{5, "a mark wrong and no room"}, 20, 679, 0, 0, {{30, 2}}},
    {{10, "an empty capture"}, 20, 0, 24, 576, {{0, 0}}},
    {{10, "an empty capture and no room"}, 20, 0, 0, 0, {{0, 0}}},
    {{10, "one byte"}, 20, 1, 24, 576, {{0, 1}}},
    {{10, "three bytes"}, 20, 3, 24, 576, {{0, 1}}},
    {{10, "the first field alone"}, 20, 4, 24, 576, {{3, 20}}},
    {{10, "tag 01"}, 20, 679, 24, 576, {{0, 2}}},
    {{10, "high byte of the first field's length"}, 20, 679, 24, 576, {{1, 1}}},
    {{10, "low byte of the first field's length"}, 20, 679, 24, 576, {{2, 2}}},
    {{10, "first field and length wrong, nothing after"}, 20, 4, 24, 576, {{0, 2}, {3, 19}}},
    {{10, "first field and length wrong"}, 20, 679, 24, 576, {{2, 0}, {3, 19}}},
    {{10, "tag 02"}, 20, 679, 24, 576, {{4, 3}}},
    {{10, "high byte of the marks' length"}, 20, 679, 24, 576, {{5, 1}}},
    {{10, "low byte of the marks' length"}, 20, 679, 24, 576, {{6, 25}}},
    {{10, "marks' length with its low byte first"}, 20, 679, 24, 576, {{5, 24}, {6, 0}}},
    {{10, "first tag 03"}, 20, 679, 24, 576, {{31, 4}}},
    {{10, "last tag 03"}, 20, 679, 24, 576, {{652, 2}}},
    {{10, "last high byte of a length"}, 20, 679, 24, 576, {{653, 1}}},
    {{10, "last low byte of a length"}, 20, 679, 24, 576, {{654, 23}}},
    {{10, "last field of 23 values"}, 20, 678, 24, 576, {{654, 23}}},
    {{10, "one byte short"}, 20, 678, 24, 576, {{3, 20}}},
    {{10, "one byte more"}, 20, 680, 24, 576, {{3, 20}}},
    {{10, "one byte more, length 255"}, 255, 7260, 259, 6216, {{3, 255}}},
    {{10, "length 21 in a capture for 20"}, 20, 679, 25, 600, {{3, 21}}},
    {{10, "a mark and the end wrong"}, 20, 678, 24, 576, {{7, 2}}},
    {{10, "a mark and the last tag wrong"}, 20, 679, 24, 576, {{7, 2}, {652, 2}}},
    {{10, "the last tag wrong and no room"}, 20, 679, 0, 0, {{652, 2}}},
    {{10, "one byte more, a mark wrong, no room"}, 20, 680, 0, 0, {{7, 2}}},
};

/* Quantising: so many numbers, and a room in bytes. Each byte of the numbers is `fill`, so that all of them are one of these. */
enum { NUMBERS_48_5 = 0x42, NUMBERS_ZERO = 0x00, NUMBERS_NAN = 0xFF };

struct quantise_case {
    struct expected expected;
    size_t numbers_count, room;
    uint8_t fill;
};

static const struct quantise_case quantise_cases[] = {
    {{0, "exact room"}, 24, 24, NUMBERS_48_5},
    {{0, "exact room, silent"}, 24, 24, NUMBERS_ZERO},
    {{0, "exact room, faulty"}, 24, 24, NUMBERS_NAN},
    {{0, "one byte of room to spare"}, 24, 25, NUMBERS_48_5},
    {{0, "room for the values of a whole frame"}, 24, 6216, NUMBERS_48_5},
    {{2, "one number short"}, 23, 24, NUMBERS_48_5},
    {{2, "one number more"}, 25, 24, NUMBERS_48_5},
    {{2, "no numbers"}, 0, 24, NUMBERS_48_5},
    {{2, "a single number"}, 1, 24, NUMBERS_48_5},
    {{2, "6 numbers, which are 24 bytes"}, 6, 24, NUMBERS_48_5},
    {{2, "the numbers of two bursts"}, 48, 48, NUMBERS_48_5},
    {{2, "one number short, silent"}, 23, 24, NUMBERS_ZERO},
    {{2, "one number more, faulty"}, 25, 24, NUMBERS_NAN},
    {{2, "one number short, and room for just that"}, 23, 23, NUMBERS_48_5},
    {{2, "one number more, and room one byte short"}, 25, 23, NUMBERS_48_5},
    {{2, "one number short, and no room"}, 23, 0, NUMBERS_48_5},
    {{2, "neither numbers nor room"}, 0, 0, NUMBERS_48_5},
    {{3, "room one byte short"}, 24, 23, NUMBERS_48_5},
    {{3, "room for 6 bytes"}, 24, 6, NUMBERS_48_5},
    {{3, "no room"}, 24, 0, NUMBERS_48_5},
    {{3, "room one byte short, silent"}, 24, 23, NUMBERS_ZERO},
    {{3, "room one byte short, faulty"}, 24, 23, NUMBERS_NAN},
};

#endif
