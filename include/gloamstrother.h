/* gloamstrother.h: the uplink of telegram splitting (ETSI TS 103 357, TS-UNB, ULP rate) for C99 and C++.
 *
 * Five calls over the archive libgateway.a: a message to the bits of its bursts (gloam_uplink_build), a receiver's
 * numbers of one burst to soft values (gloam_burst_quantise), soft values back to the message behind the nearest string
 * of all (gloam_uplink_recover), and the stored capture of what was heard, both ways (gloam_capture_write,
 * gloam_capture_read). Each is proved for every input: it ends, and answers what is said here and nothing else. And the
 * archive's version (gloam_version).
 *
 * What holds for all five:
 *   - Buffers are lent for the call only. Nothing is kept, allocated or freed, and no byte outside them is read or
 *     written.
 *   - A buffer is a pointer and its size in bytes, one of floats a pointer and the count of its floats; (NULL, 0) is an
 *     empty one.
 *   - Any number and any size may be given: what cannot be taken is refused by its number, the first that holds in the
 *     order stated with the call. A refusal writes nothing, and the other fields of the answer are 0.
 *   - refusal 0 means done; then the other fields hold, and what the call writes is written. Bytes beyond are kept.
 *   - There is no state: calls may be made from any number of threads at once, as long as no buffer that one of them
 *     writes is lent to another.
 *   - Stack: 16 kB are enough for gloam_uplink_build, 32 kB for gloam_uplink_recover, 4 kB for gloam_burst_quantise and
 *     for the captures.
 * What the caller owes, since no call can test it: each buffer is as long as its size or count says, one of floats is
 * aligned as C wants a float to be, and one that is written overlaps no other.
 */
#ifndef GLOAMSTROTHER_H
#define GLOAMSTROTHER_H

#include <stddef.h>
#include <stdint.h>

#ifdef __cplusplus
extern "C" {
#endif

/* The version of this header, 10000 major + 100 minor + patch: 200 is 0.2.0. It rises whenever this header changes. */
#define GLOAM_VERSION 200

/* gloam_version: the version of the archive. Compare it with GLOAM_VERSION once, when the program starts: where they
 * differ, the program was compiled with the header of one version and linked with the archive of another, and no call
 * may be trusted: fields and meanings may have moved. Install both anew from one version, and compile and link again.
 * Archives before 0.2.0 have no gloam_version: linking fails. */
uint32_t gloam_version(void);

/* The least and the greatest length of a message, in bytes. */
#define GLOAM_LEAST_LENGTH 20
#define GLOAM_MOST_LENGTH 255

/* Sizes in bytes for a message of `length` bytes, 20 to 255. A frame is sent, and marks and values are heard, as length + 4 sub-packets. */
#define GLOAM_SUB_PACKETS(length) ((size_t)(length) + 4)
#define GLOAM_FRAME_SIZE(length) (36 * GLOAM_SUB_PACKETS(length))
#define GLOAM_MARKS_SIZE(length) GLOAM_SUB_PACKETS(length)
#define GLOAM_VALUES_SIZE(length) (24 * GLOAM_SUB_PACKETS(length))
#define GLOAM_CAPTURE_SIZE(length) (119 + 28 * (size_t)(length))

/* Room enough for every length: 255, 9324, 259, 6216 and 7259 bytes. */
#define GLOAM_MOST_MESSAGE_SIZE ((size_t)GLOAM_MOST_LENGTH)
#define GLOAM_MOST_FRAME_SIZE GLOAM_FRAME_SIZE(GLOAM_MOST_LENGTH)
#define GLOAM_MOST_MARKS_SIZE GLOAM_MARKS_SIZE(GLOAM_MOST_LENGTH)
#define GLOAM_MOST_VALUES_SIZE GLOAM_VALUES_SIZE(GLOAM_MOST_LENGTH)
#define GLOAM_MOST_CAPTURE_SIZE GLOAM_CAPTURE_SIZE(GLOAM_MOST_LENGTH)

/* A burst carries so many values: the numbers that gloam_burst_quantise takes, and the bytes that it writes. */
#define GLOAM_BURST_VALUES 24

/* The greatest cost that gloam_uplink_recover answers. */
#define GLOAM_MOST_COST 795648

/* The numbers of the refusals. A number is never used again for another meaning. What to do about each: docs/REFUSALS.md. */
enum gloam_refusal {
    GLOAM_DONE = 0,
    GLOAM_REFUSED_LENGTH = 1,      /* the length is below 20 or above 255 */
    GLOAM_REFUSED_SIZE = 2,        /* message, marks, values or numbers are not of the exact size */
    GLOAM_REFUSED_ROOM = 3,        /* an output buffer is too short */
    GLOAM_REFUSED_MODE = 4,        /* the mode is above 3 */
    GLOAM_REFUSED_MARK = 5,        /* a mark is neither 0 nor 1 */
    GLOAM_REFUSED_SILENCE = 6,     /* no heard sub-packet has a non-zero value */
    GLOAM_REFUSED_HEADER_CRC = 7,  /* the header CRC of the nearest string is wrong */
    GLOAM_REFUSED_PSI = 8,         /* the PSI of the nearest string is not the told length */
    GLOAM_REFUSED_PAYLOAD_CRC = 9, /* the payload CRC of the nearest string is wrong */
    GLOAM_REFUSED_CAPTURE = 10     /* the capture is malformed */
};

/* What gloam_burst_quantise finds in the numbers of a burst. */
enum gloam_finding {
    GLOAM_HEARD = 1,  /* no NaN, and a number that is not zero: the peak holds */
    GLOAM_SILENT = 2, /* all 24 are plus or minus zero */
    GLOAM_FAULTY = 3  /* a NaN is among them */
};

/* What writing answers: refusal 0, and size bytes are written; or the refusal, and size is 0. */
typedef struct {
    uint32_t refusal;
    uint32_t size;
} gloam_written;

/* What reading a capture answers: refusal 0 and the length of the message; or the refusal, and length is 0. */
typedef struct {
    uint32_t refusal;
    uint32_t length;
} gloam_read;

/* What recovering answers: refusal 0 with the length of the message, its mode and the cost of the nearest string; or the refusal, and the others are 0. */
typedef struct {
    uint32_t refusal;
    uint32_t length;
    uint32_t mode;
    uint32_t cost;
} gloam_recovered;

/* What quantising answers: refusal 0, the finding and, where that is GLOAM_HEARD, the peak; or the refusal, and finding
 * is 0. Wherever finding is not GLOAM_HEARD, peak is +0. */
typedef struct {
    uint32_t refusal;
    uint32_t finding;
    float peak;
} gloam_quantised;

/* gloam_uplink_build: the frame of one message.
 *
 *   length   20 to 255
 *   mode     0 to 3, the two bits MMode, carried and not judged
 *   message  in   exactly length bytes
 *   frame    out  at least GLOAM_FRAME_SIZE(length) = 36 (length + 4) bytes; any further ones are kept
 *
 * refusal 0: size = 36 (length + 4) bytes of frame are written, each 0 or 1: sub-packets in order, 36 symbols each, of which
 * symbols 12 to 23 are the pilot. Else the first refusal that holds, in this order:
 *   1 length   2 message_size   3 frame_size   4 mode */
gloam_written gloam_uplink_build(uint64_t length, uint64_t mode,
                                 const uint8_t *message, size_t message_size,
                                 uint8_t *frame, size_t frame_size);

/* gloam_burst_quantise: the numbers of one received burst as values, and what is found in them.
 *
 *   numbers  in   exactly GLOAM_BURST_VALUES = 24 floats (IEEE 754, single precision) of any value at all, aligned as
 *                 C wants them and only read; numbers_count counts floats, not bytes
 *   values   out  at least 24 bytes; any further ones are kept
 *
 * refusal 0: 24 bytes of values are written, byte p for number p, in two's complement: the nearest whole number,
 * halves away from zero, held at 127 and -127 (so never -128); an infinity is 127 or -127, a NaN 0. The scale is the
 * receiver's: what lies below one half says nothing, and what lies above 127 says no more than 127. finding is
 *   GLOAM_FAULTY  where a NaN is among the 24, also beside infinities; the other values are written as ever, and peak
 *                 is +0
 *   GLOAM_SILENT  where all 24 are plus or minus zero; peak is +0
 *   GLOAM_HEARD   everywhere else; peak is the greatest magnitude of the 24, positive, and infinite where one of them
 *                 is
 * The numbers are judged and not their bytes: where all magnitudes are below one half, all bytes are 0, and yet the
 * burst is heard, with its peak, if one number is not zero, be it subnormal. Else the first refusal that holds, in
 * this order:
 *   2 numbers_count   3 values_size
 *
 * The processor's modes for floats, its rounding and whether it flushes subnormals to zero (as a program compiled with
 * -ffast-math has it), change no answer; that is tested, since the proof knows no modes. A signalling NaN raises the
 * flag of an invalid operation and a subnormal that of a denormal operand: only a program that lets these flags trap
 * gets a signal.
 *
 * The 24 bytes are those of one sub-packet among the values of gloam_uplink_recover and gloam_capture_write, in their
 * order, a negative number saying 0 and a positive one 1: for sub-packet s give values + 24 * s. Its mark is the
 * caller's to set. A heard burst is marked 1. For a silent or a faulty one the receiver decides: marked 1, its zeros
 * say nothing, and the other values of a faulty one count; marked 0, nothing of it counts. */
gloam_quantised gloam_burst_quantise(const float *numbers, size_t numbers_count,
                                     uint8_t *values, size_t values_size);

/* gloam_uplink_recover: the message of one received frame.
 *
 *   length   the told length, 20 to 255
 *   marks    in   exactly length + 4 bytes, one a sub-packet: 0 lost, 1 heard
 *   values   in   exactly 24 (length + 4) bytes, 24 a sub-packet, each in two's complement, -128 allowed. Value p stands for symbol p
 *                 where p < 12, else for symbol p + 12. Negative says 0, positive says 1, its magnitude is its weight; zero says
 *                 nothing. What stands in a lost sub-packet does not count.
 *   message  out  at least length bytes; any further ones are kept
 *
 * refusal 0: length bytes of message are written; length, mode (0 to 3) and cost (0 to GLOAM_MOST_COST) hold. The message is the one
 * behind the nearest string: of all strings of payload bits of the told length the one whose coded bits stand against the values by
 * the least weight, the cost; among equals the one with 0 at the first bit entering the coder where they differ. That string alone
 * is judged. Else the first refusal that holds, in this order:
 *   1 length   2 marks_size or values_size   3 message_size   5 mark
 *   6 silence  7 header CRC                  8 PSI            9 payload CRC */
gloam_recovered gloam_uplink_recover(uint64_t length,
                                     const uint8_t *marks, size_t marks_size,
                                     const uint8_t *values, size_t values_size,
                                     uint8_t *message, size_t message_size);

/* gloam_capture_write: the stored capture of what was heard of one frame. Its bytes: docs/CAPTURE.md.
 *
 *   length   20 to 255
 *   marks    in   exactly length + 4 bytes, each 0 or 1
 *   values   in   exactly 24 (length + 4) bytes, kept as they are, those of lost sub-packets too
 *   capture  out  at least GLOAM_CAPTURE_SIZE(length) = 119 + 28 length bytes; any further ones are kept
 *
 * refusal 0: size = 119 + 28 length bytes of capture are written. Else the first refusal that holds, in this order:
 *   1 length   2 marks_size or values_size   3 capture_size   5 mark */
gloam_written gloam_capture_write(uint64_t length,
                                  const uint8_t *marks, size_t marks_size,
                                  const uint8_t *values, size_t values_size,
                                  uint8_t *capture, size_t capture_size);

/* gloam_capture_read: the length, marks and values in a stored capture.
 *
 *   capture  in   any bytes; a capture has 119 + 28 length of them, and capture_size is just that
 *   marks    out  at least length + 4 bytes, length as the capture tells it; any further ones are kept
 *   values   out  at least 24 (length + 4) bytes; any further ones are kept
 * GLOAM_MOST_MARKS_SIZE and GLOAM_MOST_VALUES_SIZE bytes have room for every capture.
 *
 * refusal 0: length holds, length + 4 bytes of marks and 24 (length + 4) bytes of values are written, just what gloam_uplink_recover
 * takes. Else the first refusal that holds, in this order:
 *   10 the first field   1 its length   10 all the rest and the end   5 mark   3 marks_size or values_size */
gloam_read gloam_capture_read(const uint8_t *capture, size_t capture_size,
                              uint8_t *marks, size_t marks_size,
                              uint8_t *values, size_t values_size);

/* One short sentence on a refusal's number, for a log; never NULL, and never to be freed. */
static inline const char *gloam_refusal_text(uint32_t refusal)
{
    switch (refusal) {
    case GLOAM_DONE: return "done";
    case GLOAM_REFUSED_LENGTH: return "the length is below 20 or above 255";
    case GLOAM_REFUSED_SIZE: return "message, marks, values or numbers are not of the exact size";
    case GLOAM_REFUSED_ROOM: return "an output buffer is too short";
    case GLOAM_REFUSED_MODE: return "the mode is above 3";
    case GLOAM_REFUSED_MARK: return "a mark is neither 0 nor 1";
    case GLOAM_REFUSED_SILENCE: return "no heard sub-packet has a non-zero value";
    case GLOAM_REFUSED_HEADER_CRC: return "the header CRC of the nearest string is wrong";
    case GLOAM_REFUSED_PSI: return "the PSI of the nearest string is not the told length";
    case GLOAM_REFUSED_PAYLOAD_CRC: return "the payload CRC of the nearest string is wrong";
    case GLOAM_REFUSED_CAPTURE: return "the capture is malformed";
    default: return "a number that this header does not know";
    }
}

#ifdef __cplusplus
}
#endif

#endif
