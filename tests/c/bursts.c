/* bursts.c: a burst's numbers to values, finding and peak. Every edge of the rounding and of the format at each of the 24 places, among zeros and
 * among usual numbers, and any bits at all, against the model; answers written out by hand beside it; rooms to
 * spare; the processor's modes for floats; and the bursts of a whole frame, on to recovery. */
#include "calls.h"
#include "check.h"
#include "heard.h"
#include "model.h"

#include <float.h>
#include <inttypes.h>
#include <math.h>
#include <string.h>
#include <xmmintrin.h>

enum { PLACES = GLOAM_BURST_VALUES, MOST_EDGES = 4096, MOST_SPARE = 64 };
#define COUNT(table) (sizeof(table) / sizeof *(table))

static struct lent lent;
static enum guarded_layout layout;
static bool is_short;

/* A burst is kept as the bits of its numbers: no NaN is changed on its way. */
typedef uint32_t burst[PLACES];

static uint32_t edges[MOST_EDGES];
static size_t edges_count;

static void add_bits(uint32_t bits)
{
    if (edges_count == MOST_EDGES)
        check_stop("there are more edges than room for them");
    edges[edges_count++] = bits;
}

/* A number and its neighbours in the format, and the same of its negative. */
static void add_near(float number)
{
    for (int side = 0; side < 2; side++, number = -number) {
        add_bits(bits_of(number));
        add_bits(bits_of(nextafterf(number, INFINITY)));
        add_bits(bits_of(nextafterf(number, -INFINITY)));
    }
}

/* NaNs of one payload bit, of that and all below it, and of either with the bit that makes them quiet; both signs. */
static void add_nans(void)
{
    for (unsigned bit = 0; bit < 23; bit++)
        for (uint32_t sign = 0; sign < 2; sign++)
            for (uint32_t quiet = 0; quiet < 2; quiet++) {
                uint32_t head = sign << 31 | UINT32_C(0xFF) << 23 | quiet << 22;
                add_bits(head | UINT32_C(1) << bit);
                add_bits(head | ((UINT32_C(2) << bit) - 1));
            }
}

static void make_edges(void)
{
    for (int k = 0; k <= 128; k++)
        add_near((float)k + 0.5f);
    for (int k = 0; k <= 130; k++)
        add_near((float)k);
    for (float power = 0x1p-149f; power < INFINITY; power *= 2)
        add_near(power);
    add_near(FLT_MAX);
    add_near(FLT_MIN);
    add_near(0.49999997f);
    add_near(8388609.0f);
    add_bits(bits_of(INFINITY));
    add_bits(bits_of(-INFINITY));
    add_nans();
}

/* Calls with a burst, and judges the answer by the model. */
static gloam_quantised check_burst(const burst bits, size_t spare)
{
    float numbers[PLACES];
    struct model_burst expected;
    memcpy(numbers, bits, sizeof numbers);
    model_quantise(numbers, &expected);
    lent_lay_numbers(&lent, bits, PLACES, layout);
    guarded_lay(&lent.values, PLACES + spare, layout, 0xEE);
    gloam_quantised answer = call_quantise(&lent);
    CHECK_NUMBER("refusal", GLOAM_DONE, answer.refusal);
    CHECK_NUMBER("finding", expected.finding, answer.finding);
    CHECK_FLOAT("peak", expected.peak, answer.peak);
    CHECK_BYTES("values", expected.values, lent.values.bytes, PLACES);
    return answer;
}

static void fill_zeros(burst bits)
{
    for (size_t k = 0; k < PLACES; k++)
        bits[k] = bits_of(k % 3 == 0 ? -0.0f : 0.0f);
}

/* Each is another value, from -115 to 115. */
static void fill_usual(burst bits)
{
    for (size_t k = 0; k < PLACES; k++)
        bits[k] = bits_of(10.0f * (float)k - 115.25f);
}

/* Every place, or the first, a middle and the last. */
static size_t next_place(size_t place)
{
    return place + (is_short ? 11 : 1);
}

static void every_edge_among(void (*fill)(burst bits))
{
    for (size_t at = 0; at < edges_count; at += is_short ? 7 : 1)
        for (size_t place = 0; place < PLACES; place = next_place(place)) {
            burst bits;
            fill(bits);
            bits[place] = edges[at];
            check_case("bits %08" PRIx32 " at place %zu", edges[at], place);
            check_burst(bits, 0);
        }
}

static void every_edge_among_zeros(void)
{
    every_edge_among(fill_zeros);
}

static void every_edge_among_usual_numbers(void)
{
    every_edge_among(fill_usual);
}

static void values_by_hand(void)
{
    static const struct {
        float number;
        int value;
    } cases[] = {
        {0.0f, 0}, {0x1p-149f, 0}, {0x1p-126f, 0}, {0.25f, 0}, {0.49999997f, 0}, {0.5f, 1}, {0.50000006f, 1},
        {0.99999994f, 1}, {1.0f, 1}, {1.4999999f, 1}, {1.5f, 2}, {2.4999998f, 2}, {2.5f, 3}, {3.5f, 4},
        {60.5f, 61}, {125.5f, 126}, {126.0f, 126}, {126.49999f, 126}, {126.5f, 127}, {127.0f, 127}, {127.49999f, 127},
        {127.5f, 127}, {128.0f, 127}, {128.5f, 127}, {255.0f, 127}, {256.0f, 127}, {8388609.0f, 127}, {4294967296.0f, 127},
        {FLT_MAX, 127}, {INFINITY, 127}, {NAN, 0},
    };
    for (size_t at = 0; at < 2 * COUNT(cases); at++)
        for (size_t place = 0; place < PLACES; place = next_place(place)) {
            burst bits = {0};
            uint8_t expected[PLACES] = {0};
            float number = cases[at / 2].number;
            bits[place] = bits_of(at % 2 == 0 ? number : -number);
            expected[place] = (uint8_t)(at % 2 == 0 ? cases[at / 2].value : -cases[at / 2].value);
            check_case("%s%a at place %zu", at % 2 == 0 ? "" : "-", (double)number, place);
            check_burst(bits, 0);
            CHECK_BYTES("values by hand", expected, lent.values.bytes, PLACES);
        }
}

enum {
    HALF = 0x3F000000,
    BELOW_HALF = 0x3EFFFFFF,
    ONE = 0x3F800000,
    SIXTY = 0x42700000,
    SUBNORMAL = 1,
    MOST_SUBNORMAL = 0x007FFFFF,
    INFINITE = 0x7F800000,
    SIGNALLING = 0x7F800001,
    QUIET = 0x7FC00000
};
#define MINUS(bits) (UINT32_C(0x80000000) | (uint32_t)(bits))

/* 24 numbers of the same bits but for two of them, and what is found; the peak by its bits. */
static void findings_by_hand(void)
{
    static const struct {
        const char *name;
        uint32_t all;
        struct {
            size_t place;
            uint32_t bits;
        } but[2];
        uint32_t finding, peak;
    } cases[] = {
        {"zeros", 0, {{0, 0}, {0, 0}}, GLOAM_SILENT, 0},
        {"zeros of minus sign", MINUS(0), {{0, MINUS(0)}, {0, MINUS(0)}}, GLOAM_SILENT, 0},
        {"zeros of both signs", 0, {{0, MINUS(0)}, {23, MINUS(0)}}, GLOAM_SILENT, 0},
        {"one subnormal, first", 0, {{0, SUBNORMAL}, {1, MINUS(0)}}, GLOAM_HEARD, SUBNORMAL},
        {"one subnormal, last, of minus sign", 0, {{23, MINUS(SUBNORMAL)}, {1, 0}}, GLOAM_HEARD, SUBNORMAL},
        {"24 subnormals", SUBNORMAL, {{5, MINUS(MOST_SUBNORMAL)}, {6, SUBNORMAL}}, GLOAM_HEARD, MOST_SUBNORMAL},
        {"24 numbers below one half", BELOW_HALF, {{0, BELOW_HALF}, {0, BELOW_HALF}}, GLOAM_HEARD, BELOW_HALF},
        {"one number below one half, of minus sign", 0, {{9, MINUS(BELOW_HALF)}, {0, 0}}, GLOAM_HEARD, BELOW_HALF},
        {"the same magnitude with both signs", MINUS(HALF), {{3, HALF}, {4, HALF}}, GLOAM_HEARD, HALF},
        {"the greatest magnitude, first, of minus sign", ONE, {{0, MINUS(SIXTY)}, {1, HALF}}, GLOAM_HEARD, SIXTY},
        {"the greatest magnitude, last", MINUS(ONE), {{23, SIXTY}, {1, HALF}}, GLOAM_HEARD, SIXTY},
        {"24 of minus sign", MINUS(SIXTY), {{0, MINUS(ONE)}, {23, MINUS(ONE)}}, GLOAM_HEARD, SIXTY},
        {"an infinity", ONE, {{23, INFINITE}, {0, ONE}}, GLOAM_HEARD, INFINITE},
        {"minus infinity among zeros", 0, {{0, MINUS(INFINITE)}, {1, MINUS(0)}}, GLOAM_HEARD, INFINITE},
        {"both infinities", SIXTY, {{11, INFINITE}, {12, MINUS(INFINITE)}}, GLOAM_HEARD, INFINITE},
        {"24 of minus infinity", MINUS(INFINITE), {{0, MINUS(INFINITE)}, {0, MINUS(INFINITE)}}, GLOAM_HEARD, INFINITE},
        {"a NaN among zeros, first", 0, {{0, QUIET}, {1, MINUS(0)}}, GLOAM_FAULTY, 0},
        {"a NaN among numbers, last", SIXTY, {{23, MINUS(QUIET)}, {0, ONE}}, GLOAM_FAULTY, 0},
        {"a signalling NaN among numbers", ONE, {{8, SIGNALLING}, {0, ONE}}, GLOAM_FAULTY, 0},
        {"a NaN before an infinity", ONE, {{0, MINUS(SIGNALLING)}, {1, INFINITE}}, GLOAM_FAULTY, 0},
        {"a NaN after an infinity", MINUS(SIXTY), {{22, MINUS(INFINITE)}, {23, QUIET}}, GLOAM_FAULTY, 0},
        {"two NaNs among infinities", INFINITE, {{2, QUIET}, {20, SIGNALLING}}, GLOAM_FAULTY, 0},
        {"24 NaNs", QUIET, {{0, SIGNALLING}, {1, MINUS(QUIET)}}, GLOAM_FAULTY, 0},
    };
    for (size_t at = 0; at < COUNT(cases); at++) {
        burst bits;
        for (size_t k = 0; k < PLACES; k++)
            bits[k] = cases[at].all;
        for (size_t k = 0; k < 2; k++)
            bits[cases[at].but[k].place] = cases[at].but[k].bits;
        check_case("%s", cases[at].name);
        gloam_quantised answer = check_burst(bits, 0);
        CHECK_NUMBER("finding by hand", cases[at].finding, answer.finding);
        CHECK_NUMBER("bits of the peak by hand", cases[at].peak, bits_of(answer.peak));
    }
}

/* A faulty burst's other 23 values: number k is k with its sign in turn, and its value must be so too. */
static void values_beside_a_nan(void)
{
    for (size_t place = 0; place < PLACES; place++) {
        burst bits;
        uint8_t expected[PLACES];
        for (size_t k = 0; k < PLACES; k++) {
            int value = k % 2 == 0 ? (int)k : -(int)k;
            bits[k] = bits_of((float)value);
            expected[k] = (uint8_t)value;
        }
        bits[place] = SIGNALLING;
        expected[place] = 0;
        check_case("a NaN at place %zu", place);
        CHECK_NUMBER("finding", GLOAM_FAULTY, check_burst(bits, 0).finding);
        CHECK_BYTES("values by hand", expected, lent.values.bytes, PLACES);
    }
}

static void every_room(void)
{
    burst bits;
    fill_usual(bits);
    for (size_t spare = 0; spare <= MOST_SPARE; spare++) {
        check_case("%zu bytes to spare", spare);
        check_burst(bits, spare);
    }
}

static void any_bits(void)
{
    uint64_t random = 1010101;
    for (size_t round = 0; round < (is_short ? 100 : 20000); round++) {
        burst bits;
        for (size_t k = 0; k < PLACES; k++)
            bits[k] = model_random(&random);
        check_case("burst %zu of any bits", round);
        check_burst(bits, round % 2);
    }
}

/* From -128 to 128 in steps of 1/64: each half and each whole number is among them. */
static void numbers_in_range(void)
{
    uint64_t random = 2020202;
    for (size_t round = 0; round < (is_short ? 100 : 20000); round++) {
        burst bits;
        for (size_t k = 0; k < PLACES; k++)
            bits[k] = bits_of((float)((int)(model_random(&random) % 16385) - 8192) / 64);
        check_case("burst %zu of numbers in range", round);
        check_burst(bits, round % 2);
    }
}

/* The processor's control register for floats: all traps off and results rounded to nearest, as a program starts; rounding down, up and toward
 * zero; and each of these with subnormals taken for zeros. */
enum { AS_STARTED = 0x1F80, ROUNDINGS = 4, ROUNDING = 0x2000, FLUSHED = 0x8040 };

/* What was just judged comes again in every mode, byte for byte. */
static void check_modes(const burst bits, gloam_quantised expected)
{
    float numbers[PLACES];
    uint8_t values[PLACES];
    memcpy(numbers, bits, sizeof numbers);
    for (unsigned mode = 0; mode < 2 * ROUNDINGS; mode++) {
        memset(values, 0xEE, sizeof values);
        _mm_setcsr(AS_STARTED | mode % ROUNDINGS * ROUNDING | (mode < ROUNDINGS ? 0 : FLUSHED));
        gloam_quantised answer = gloam_burst_quantise(numbers, PLACES, values, PLACES);
        _mm_setcsr(AS_STARTED);
        CHECK_NUMBER("refusal in another mode", GLOAM_DONE, answer.refusal);
        CHECK_NUMBER("finding in another mode", expected.finding, answer.finding);
        CHECK_NUMBER("bits of the peak in another mode", bits_of(expected.peak), bits_of(answer.peak));
        CHECK_BYTES("values in another mode", lent.values.bytes, values, PLACES);
    }
}

static void every_mode(void)
{
    for (size_t at = 0; at < edges_count; at += is_short ? 7 : 1) {
        burst bits;
        fill_zeros(bits);
        bits[at % PLACES] = edges[at];
        check_case("bits %08" PRIx32 " in every mode", edges[at]);
        check_modes(bits, check_burst(bits, 0));
    }
}

/* The numbers of sub-packet s: within a half of what is heard. Every fifth is silent, and every seventh has a NaN. */
static void make_numbers(const struct heard *heard, size_t s, float *numbers)
{
    for (size_t p = 0; p < PLACES; p++)
        numbers[p] = s % 5 == 4 ? 0.0f : (float)(int8_t)heard->values[24 * s + p] + (p % 2 == 0 ? 0.49f : -0.49f);
    if (s % 7 == 6)
        numbers[s % PLACES] = NAN;
}

/* A frame's bursts, each to its part of the values that recovery takes; only the silent ones are marked lost. */
static void one_frame(size_t length)
{
    static struct heard heard;
    static uint8_t marks[GLOAM_MOST_MARKS_SIZE], values[GLOAM_MOST_VALUES_SIZE];
    uint8_t message[GLOAM_MOST_MESSAGE_SIZE];
    size_t marks_size = GLOAM_MARKS_SIZE(length), values_size = GLOAM_VALUES_SIZE(length);
    heard_make(&heard, length, 0);
    for (size_t s = 0; s < marks_size; s++) {
        float numbers[PLACES];
        make_numbers(&heard, s, numbers);
        uint32_t finding = gloam_burst_quantise(numbers, PLACES, values + 24 * s, values_size - 24 * s).finding;
        marks[s] = finding != GLOAM_SILENT;
        check_case("length %zu, sub-packet %zu", length, s);
        CHECK_NUMBER("finding", s % 7 == 6 ? GLOAM_FAULTY : s % 5 == 4 ? GLOAM_SILENT : GLOAM_HEARD, finding);
        if (finding == GLOAM_HEARD)
            CHECK_BYTES("values", heard.values + 24 * s, values + 24 * s, PLACES);
    }
    check_case("length %zu", length);
    gloam_recovered answer = gloam_uplink_recover(length, marks, marks_size, values, values_size, message, length);
    CHECK_NUMBER("recover's refusal", GLOAM_DONE, answer.refusal);
    CHECK_NUMBER("recover's mode", heard.mode, answer.mode);
    CHECK_NUMBER("recover's cost", 0, answer.cost);
    CHECK_BYTES("message", heard.message, message, length);
}

static void frames_of_bursts(void)
{
    one_frame(GLOAM_LEAST_LENGTH);
    one_frame(99);
    one_frame(GLOAM_MOST_LENGTH);
}

static void in_each_layout(const char *name, void (*sweep)(void))
{
    for (layout = first_layout(is_short); layout <= last_layout(is_short); layout++) {
        check_group("quantising: %s, %s", name, guarded_layout_name(layout));
        sweep();
    }
}

int main(int argc, char **argv)
{
    is_short = called_short(argc, argv);
    guarded_watch();
    lent_make(&lent);
    make_edges();
    in_each_layout("values by hand", values_by_hand);
    in_each_layout("findings and peaks by hand", findings_by_hand);
    in_each_layout("the other values beside a NaN", values_beside_a_nan);
    in_each_layout("every edge among zeros", every_edge_among_zeros);
    in_each_layout("every edge among usual numbers", every_edge_among_usual_numbers);
    in_each_layout("rooms of 24 bytes and more", every_room);
    in_each_layout("any bits", any_bits);
    in_each_layout("every rounding mode, subnormals flushed and not", every_mode);
    in_each_layout("numbers in range", numbers_in_range);
    check_group("quantising: the bursts of a frame, on to recovery");
    frames_of_bursts();
    return check_end();
}
