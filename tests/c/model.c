#include "model.h"

#include <stdbool.h>
#include <string.h>

static void put_bits(uint8_t *bits, unsigned width, unsigned number)
{
    for (unsigned k = 0; k < width; k++)
        bits[k] = number >> (width - 1 - k) & 1;
}

/* CRC-8 of 6.4.6.2: polynomial 0x9B from 0xFF, most significant bit first. */
static unsigned crc8(const uint8_t *bits, size_t count)
{
    unsigned held = 0xFF;
    for (size_t k = 0; k < count; k++) {
        unsigned out = held >> 7 ^ bits[k];
        held = held << 1 & 0xFF;
        if (out)
            held ^= 0x9B;
    }
    return held;
}

void model_header_again(uint8_t *bits)
{
    put_bits(bits + MODEL_HEADER_CRC, 8, crc8(bits + MODEL_PAYLOAD_CRC, 16));
}

size_t model_payload(const uint8_t *message, size_t length, unsigned mode, uint8_t *bits)
{
    for (size_t k = 0; k < length; k++)
        put_bits(bits + MODEL_MESSAGE + 8 * k, 8, message[k]);
    put_bits(bits + MODEL_MESSAGE + 8 * length, 2, mode);
    put_bits(bits + MODEL_PAYLOAD_CRC, 8, crc8(bits + MODEL_MESSAGE, 8 * length + 2));
    put_bits(bits + MODEL_PSI, 8, (unsigned)length);
    model_header_again(bits);
    return 26 + 8 * length;
}

/* w(k) = w(k-4) xor w(k-9), the nine bits before w(0) all 1; the latest of nine lowest. */
void model_whiten(uint8_t *bits, size_t count)
{
    unsigned nine = 0x1FF;
    for (size_t k = 0; k < count; k++) {
        unsigned white = (nine >> 3 ^ nine >> 8) & 1;
        nine = (nine << 1 | white) & 0x1FF;
        bits[k] ^= (uint8_t)white;
    }
}

static unsigned parity(unsigned number)
{
    return (unsigned)__builtin_parity(number);
}

/* Codes whitened bits and six zeros after them: three coded bits a step. */
static size_t code(const uint8_t *white, size_t count, uint8_t *coded)
{
    static const unsigned words[3] = {0155, 0123, 0137};
    unsigned window = 0;
    for (size_t k = 0; k < count + 6; k++) {
        window = window >> 1 | (k < count ? white[k] : 0u) << 6;
        for (unsigned w = 0; w < 3; w++)
            coded[3 * k + w] = (uint8_t)parity(window & words[w]);
    }
    return 3 * (count + 6);
}

static size_t sub_packet(size_t i, size_t length)
{
    if (i < 288)
        return i % 24;
    size_t group_length = length - 20 + 12, group = (i - 288) / group_length, rest = (i - 288) % group_length;
    return rest < 12 ? 2 * rest + group % 2 : rest + 12;
}

/* Table 6-43, in its own order: outwards from the pilot, on the side before it and the side after it in turn. */
static size_t symbol(size_t s, size_t o)
{
    return o % 2 == s % 2 ? 11 - o / 2 : 24 + o / 2;
}

static void put_pilots(uint8_t *frame, size_t length)
{
    static const uint8_t core[12] = {0, 1, 1, 1, 0, 1, 0, 0, 0, 0, 1, 0};
    static const uint8_t extension[12] = {0, 1, 0, 0, 1, 1, 1, 1, 1, 0, 1, 0};
    for (size_t s = 0; s < length + 4; s++)
        memcpy(frame + 36 * s + 12, s < 24 ? core : extension, 12);
}

void model_frame(const uint8_t *bits, size_t length, uint8_t *frame)
{
    uint8_t white[MODEL_MOST_BITS], coded[3 * (MODEL_MOST_BITS + 6)];
    size_t filled[259] = {0}, payload = 26 + 8 * length;
    memcpy(white, bits, payload);
    model_whiten(white, payload);
    size_t count = code(white, payload, coded);
    put_pilots(frame, length);
    for (size_t i = 0; i < count; i++) {
        size_t s = sub_packet(i, length);
        frame[36 * s + symbol(s, filled[s]++)] = coded[(i + count - 48) % count];
    }
}

void model_heard(const uint8_t *frame, size_t length, int strength, uint8_t *values)
{
    for (size_t s = 0; s < length + 4; s++)
        for (size_t p = 0; p < 24; p++)
            values[24 * s + p] = (uint8_t)(frame[36 * s + (p < 12 ? p : p + 12)] ? strength : -strength);
}

static uint8_t *put_field(uint8_t *at, uint8_t tag, const uint8_t *value, size_t size)
{
    *at++ = tag;
    *at++ = (uint8_t)(size >> 8);
    *at++ = (uint8_t)size;
    memcpy(at, value, size);
    return at + size;
}

void model_capture(size_t length, const uint8_t *marks, const uint8_t *values, uint8_t *capture)
{
    uint8_t told = (uint8_t)length;
    capture = put_field(capture, 1, &told, 1);
    capture = put_field(capture, 2, marks, length + 4);
    for (size_t s = 0; s < length + 4; s++)
        capture = put_field(capture, 3, values + 24 * s, 24);
}

/* How many of the halves 0.5, 1.5, .. 126.5 a magnitude reaches: that is the nearest whole number, halves upwards, held at 127. Each half is a
 * double, so is each float, and comparing two doubles rounds nothing: so it is exact for every float. An infinity reaches all of
 * them, a NaN none. */
static int halves_reached(double magnitude)
{
    int reached = 0;
    while (reached < 127 && magnitude >= reached + 0.5)
        reached++;
    return reached;
}

void model_quantise(const float *numbers, struct model_burst *burst)
{
    bool faulty = false;
    burst->peak = 0;
    for (size_t k = 0; k < 24; k++) {
        float number = numbers[k], magnitude = number < 0 ? -number : number;
        int reached = halves_reached(magnitude);
        burst->values[k] = (uint8_t)(number < 0 ? -reached : reached);
        burst->peak = magnitude > burst->peak ? magnitude : burst->peak;
        faulty = faulty || number != number;
    }
    burst->finding = faulty ? 3 : burst->peak > 0 ? 1 : 2;
    if (faulty)
        burst->peak = 0;
}

uint32_t model_random(uint64_t *state)
{
    *state ^= *state << 13;
    *state ^= *state >> 7;
    *state ^= *state << 17;
    return (uint32_t)(*state >> 32);
}

void model_random_bytes(uint64_t *state, uint8_t *bytes, size_t size)
{
    for (size_t k = 0; k < size; k++)
        bytes[k] = (uint8_t)model_random(state);
}
