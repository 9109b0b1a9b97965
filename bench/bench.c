/* The benchmark: the calls of the C interface on a frame, and the steps of recovery by themselves, against libosmocore's decoder alone, in one run
 * on the same soft values: a built frame of random bytes, heard with noise and with one sub-packet in eight lost; and quantising a burst,
 * against a plain loop in C on the same numbers. Each round measures every candidate in turn; the least time of all rounds counts. No buffer
 * is cleared between calls. See docs/CHANGES.md for figures. */
#include <math.h>
#include <stdbool.h>
#include <stdint.h>
#include <stdio.h>
#include <stdlib.h>
#include <string.h>
#include <time.h>

#include "gloamstrother.h"

/* The steps of recovery, from the archive of the benchmark's own. */
uint32_t gloam_bench_search(const uint8_t *values, size_t values_size, size_t n, uint8_t *bits, size_t bits_size);
uint32_t gloam_bench_gather(size_t l, const uint8_t *marks, size_t marks_size, const uint8_t *values, size_t values_size, uint8_t *out, size_t out_size);
void gloam_bench_whiten(uint8_t *bits, size_t bits_size);

#ifdef WITH_OSMOCORE
#include <osmocom/core/bits.h>
#include <osmocom/core/conv.h>
#endif

enum { ROUNDS = 301, MOST_BITS = 2066, MOST_CODED = 3 * (MOST_BITS + 6) };

static uint64_t seed = 20261115;
static uint32_t next_random(void)
{
    seed ^= seed << 13;
    seed ^= seed >> 7;
    seed ^= seed << 17;
    return (uint32_t)(seed >> 32);
}

/* One message, its frame as it is sent and as it is heard, and its stored capture. */
struct heard_frame {
    size_t l;
    uint8_t message[GLOAM_MOST_MESSAGE_SIZE];
    uint8_t frame[GLOAM_MOST_FRAME_SIZE];
    uint8_t marks[GLOAM_MOST_MARKS_SIZE];
    uint8_t values[GLOAM_MOST_VALUES_SIZE];
    uint8_t capture[GLOAM_MOST_CAPTURE_SIZE];
};

/* A call that is measured must not be refused: its time would be of something else. */
static void must(uint32_t refusal)
{
    if (refusal != 0) {
        fprintf(stderr, "a call that is measured was refused with %u\n", (unsigned)refusal);
        exit(2);
    }
}

/* The calls on one frame; what they write lies beside it. */
static void build(struct heard_frame *f)
{
    must(gloam_uplink_build(f->l, 1, f->message, f->l, f->frame, GLOAM_FRAME_SIZE(f->l)).refusal);
}

static void recover(const struct heard_frame *f, uint8_t *message)
{
    must(gloam_uplink_recover(f->l, f->marks, GLOAM_MARKS_SIZE(f->l), f->values, GLOAM_VALUES_SIZE(f->l), message, f->l).refusal);
}

static void write_capture(struct heard_frame *f)
{
    must(gloam_capture_write(f->l, f->marks, GLOAM_MARKS_SIZE(f->l), f->values, GLOAM_VALUES_SIZE(f->l), f->capture, GLOAM_CAPTURE_SIZE(f->l)).refusal);
}

static void read_capture(struct heard_frame *f)
{
    must(gloam_capture_read(f->capture, GLOAM_CAPTURE_SIZE(f->l), f->marks, GLOAM_MARKS_SIZE(f->l), f->values, GLOAM_VALUES_SIZE(f->l)).refusal);
}

/* The values in the coder's order, one of recovery's steps. */
static void gather(const struct heard_frame *f, uint8_t *received)
{
    must(gloam_bench_gather(f->l, f->marks, GLOAM_MARKS_SIZE(f->l), f->values, GLOAM_VALUES_SIZE(f->l), received, 96 + 24 * f->l));
}

/* The nearest string of n bits, another step; its cost is below the number that stands for a wrong size. */
static void search(const uint8_t *received, size_t n, uint8_t *bits)
{
    must(gloam_bench_search(received, 3 * (n + 6), n, bits, n) == UINT32_MAX);
}

static void make_frame(struct heard_frame *f, size_t l)
{
    f->l = l;
    for (size_t k = 0; k < l; k++)
        f->message[k] = (uint8_t)next_random();
    build(f);
    for (size_t s = 0; s < GLOAM_SUB_PACKETS(l); s++) {
        f->marks[s] = next_random() % 8 != 0;
        for (size_t p = 0; p < 24; p++) {
            int strength = 40 + (int)(next_random() % 60) - (int)(next_random() % 60);
            int value = f->frame[36 * s + (p < 12 ? p : p + 12)] ? strength : -strength;
            f->values[24 * s + p] = (uint8_t)(int8_t)(value > 127 ? 127 : value < -127 ? -127 : value);
        }
    }
    write_capture(f);
}

static double now_ns(void)
{
    struct timespec t;
    clock_gettime(CLOCK_MONOTONIC, &t);
    return 1e9 * (double)t.tv_sec + (double)t.tv_nsec;
}

#ifdef WITH_OSMOCORE
static uint8_t next_output[64][2];
static uint8_t next_state[64][2];

/* 001's generator words, first bit at the newest input (clause 6.4.6.3): the three coded bits of a step, the newest bit highest in its window. */
static unsigned outputs(unsigned window)
{
    static const unsigned words[3] = {0155, 0123, 0137};
    unsigned out = 0;
    for (int k = 0; k < 3; k++)
        out = out << 1 | (unsigned)__builtin_parity(window & words[k]);
    return out;
}

static void make_osmo_code(struct osmo_conv_code *code, size_t n)
{
    /* libosmocore keeps the newest bit lowest. */
    for (unsigned s = 0; s < 64; s++)
        for (unsigned b = 0; b < 2; b++) {
            unsigned window = b << 6;
            for (int k = 0; k < 6; k++)
                window |= (s >> k & 1) << (5 - k);
            next_output[s][b] = (uint8_t)outputs(window);
            next_state[s][b] = (uint8_t)((2 * s + b) & 63);
        }
    memset(code, 0, sizeof *code);
    code->N = 3;
    code->K = 7;
    code->len = (int)n;
    code->term = CONV_TERM_FLUSH;
    code->next_output = (const uint8_t(*)[2])next_output;
    code->next_state = (const uint8_t(*)[2])next_state;
}
#endif

struct times {
    double recover, gather, search, whiten, build, write, read, theirs;
};

/* The time of one call of WHAT, in ns, where it is less than the least so far. */
#define MEASURE(least, repeats, what)                              \
    do {                                                           \
        double start_ = now_ns();                                  \
        for (int r_ = 0; r_ < (repeats); r_++)                     \
            what;                                                  \
        double took_ = (now_ns() - start_) / (repeats);            \
        (least) = took_ < (least) ? took_ : (least);               \
    } while (0)

static struct times measure(size_t l, int repeats)
{
    static struct heard_frame f;
    static uint8_t received[MOST_CODED], bits[MOST_BITS], message[GLOAM_MOST_MESSAGE_SIZE];
    struct times best = {1e18, 1e18, 1e18, 1e18, 1e18, 1e18, 1e18, 1e18};
    size_t n = 26 + 8 * l;
    make_frame(&f, l);
    gather(&f, received);
#ifdef WITH_OSMOCORE
    static sbit_t soft[MOST_CODED];
    static ubit_t decoded[MOST_BITS];
    struct osmo_conv_code code;
    make_osmo_code(&code, n);
    /* libosmocore takes a positive value for 0. */
    for (size_t k = 0; k < 3 * (n + 6); k++)
        soft[k] = (sbit_t)-(int8_t)received[k];
#endif
    for (int round = 0; round < ROUNDS; round++) {
        MEASURE(best.recover, repeats, recover(&f, message));
#ifdef WITH_OSMOCORE
        MEASURE(best.theirs, repeats, osmo_conv_decode(&code, soft, decoded));
#endif
        MEASURE(best.search, repeats, search(received, n, bits));
        MEASURE(best.gather, repeats, gather(&f, received));
        MEASURE(best.whiten, repeats, gloam_bench_whiten(bits, n));
        MEASURE(best.build, repeats, build(&f));
        MEASURE(best.write, repeats, write_capture(&f));
        MEASURE(best.read, repeats, read_capture(&f));
    }
    search(received, n, bits);
#ifdef WITH_OSMOCORE
    if (memcmp(bits, decoded, n) != 0)
        printf("note: libosmocore decodes another string of %zu bits\n", n);
#endif
    recover(&f, message);
    if (memcmp(message, f.message, l) != 0)
        printf("note: with this noise the message of %zu bytes is not the one sent\n", l);
    return best;
}

enum { BURSTS = 64, NUMBERS = GLOAM_BURST_VALUES * BURSTS, QUANTISE_REPEATS = 8 };

/* What a caller would write without the archive: the value, the finding and the peak of 24 numbers. Out of line, as the archive's call is. */
static __attribute__((noinline, noclone)) uint32_t plain_quantise(const float *numbers, uint8_t *values, float *peak)
{
    bool is_faulty = false;
    float most = 0;
    for (size_t k = 0; k < GLOAM_BURST_VALUES; k++) {
        float number = numbers[k], magnitude = fabsf(number), whole = roundf(number);
        is_faulty = is_faulty || isnan(number);
        most = magnitude > most ? magnitude : most;
        values[k] = (uint8_t)(int8_t)(isnan(number) ? 0 : whole > 127 ? 127 : whole < -127 ? -127 : whole);
    }
    *peak = is_faulty ? 0 : most;
    return is_faulty ? GLOAM_FAULTY : most > 0 ? GLOAM_HEARD : GLOAM_SILENT;
}

/* What is made of the bursts, by either. */
struct quantised {
    uint8_t values[NUMBERS];
    float peaks[BURSTS];
    uint32_t findings[BURSTS];
};

static void quantise_plain(const float *numbers, struct quantised *made)
{
    for (size_t b = 0; b < BURSTS; b++)
        made->findings[b] = plain_quantise(numbers + 24 * b, made->values + 24 * b, made->peaks + b);
}

static void quantise(const float *numbers, struct quantised *made)
{
    for (size_t b = 0; b < BURSTS; b++) {
        gloam_quantised answer = gloam_burst_quantise(numbers + 24 * b, GLOAM_BURST_VALUES, made->values + 24 * b, GLOAM_BURST_VALUES);
        must(answer.refusal);
        made->findings[b] = answer.finding;
        made->peaks[b] = answer.peak;
    }
}

/* Numbers on either side of zero, at 60 with noise, some beyond 127. */
static float usual_number(void)
{
    float strength = 60 + (float)(next_random() % 80000) / 1000 - (float)(next_random() % 80000) / 1000;
    return next_random() % 2 == 0 ? strength : -strength;
}

/* The same, and one in eight a zero, an infinity or a NaN. */
static float mixed_number(void)
{
    static const float others[] = {0.0f, -0.0f, INFINITY, -INFINITY, NAN, 0.0f, -0.0f, 0.5f};
    return next_random() % 8 == 0 ? others[next_random() % 8] : usual_number();
}

struct quantise_times {
    double ours, plain;
};

/* Both on the same numbers, in ns a burst. */
static struct quantise_times measure_quantise(float (*number)(void))
{
    static float numbers[NUMBERS];
    static struct quantised made, plain;
    struct quantise_times best = {1e18, 1e18};
    for (size_t k = 0; k < NUMBERS; k++)
        numbers[k] = number();
    for (int round = 0; round < ROUNDS; round++) {
        MEASURE(best.ours, QUANTISE_REPEATS, quantise(numbers, &made));
        MEASURE(best.plain, QUANTISE_REPEATS, quantise_plain(numbers, &plain));
    }
    if (memcmp(&made, &plain, sizeof made) != 0)
        printf("note: the plain loop makes other values, peaks or findings of these numbers\n");
    return (struct quantise_times){best.ours / BURSTS, best.plain / BURSTS};
}

static double quantise_row(const char *name, float (*number)(void))
{
    struct quantise_times t = measure_quantise(number);
    printf("%-24s %-9.1f %-11.1f %.2f\n", name, t.ours, t.plain, t.ours / t.plain);
    return t.ours / t.plain;
}

static void quantise_table(void)
{
    printf("\nquantising, in ns a burst of 24 numbers; plain = a loop of roundf and a clamp with the NaN test and the peak, gcc -O2\n");
    printf("numbers                  quantise  plain loop  ratio\n");
    double usual = quantise_row("at 60 with noise", usual_number);
    double mixed = quantise_row("with zeros, inf and NaN", mixed_number);
    printf("quantise ratio usual: %.2f mixed: %.2f\n", usual, mixed);
}

int main(void)
{
    static const size_t lengths[] = {20, 50, 100, 150, 200, 255};
    double ratio20 = 0, ratio255 = 0;
    printf("times in ns; a step of the trellis is one payload or tail bit; rest = checks, silence, opening; outside = the part of recovery outside the search\n");
    printf("L    recover  search   gather  whiten  rest    outside  build   write   read    search a step  recover a step  libosmocore  search ratio  recover ratio\n");
    for (size_t i = 0; i < sizeof lengths / sizeof *lengths; i++) {
        size_t l = lengths[i], n = 26 + 8 * l;
        struct times t = measure(l, (int)(20000 / n) + 1);
        double steps = (double)(n + 6), rest = t.recover - t.search - t.gather - t.whiten, outside = 100 * (1 - t.search / t.recover);
        printf("%-4zu %-8.0f %-8.0f %-7.0f %-7.0f %-7.0f %3.0f %%    %-7.0f %-7.0f %-7.0f %-14.2f %-15.2f ", l, t.recover, t.search, t.gather, t.whiten, rest, outside, t.build, t.write, t.read, t.search / steps, t.recover / steps);
#ifdef WITH_OSMOCORE
        printf("%-12.0f %-13.2f %.2f\n", t.theirs, t.search / t.theirs, t.recover / t.theirs);
        ratio20 = l == 20 ? t.recover / t.theirs : ratio20;
        ratio255 = l == 255 ? t.recover / t.theirs : ratio255;
#else
        printf("not measured -             -\n");
#endif
    }
#ifdef WITH_OSMOCORE
    printf("ratio 20: %.2f ratio 255: %.2f\n", ratio20, ratio255);
#else
    (void)ratio20, (void)ratio255;
    printf("ratio 20: - ratio 255: -\n");
#endif
    quantise_table();
    return 0;
}
