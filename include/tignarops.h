/* Tignarops: reading and writing Opus speech packets, each call proved. Contracts: crates/tignarops/src/lib.rt.
 *
 * What every caller owes: a pointer names as many readable elements as the length beside it says
 * (writable ones, where it is not const), and memory that a call writes overlaps no other memory
 * that it is lent. A length of 0 may come with any pointer that is not NULL.
 *
 * What every call gives: `refusal` is 0, or the number of document 01's table that refuses the
 * call: 1 more than 1,275 bytes, 2 an unsound state, 3 a total above 1,000,000, 4 a number out of
 * its range, 5 a table that breaks its rule, 6 a length, 7 a gap set that breaks its rule, 8 a value
 * that cannot be written; of the calls on whole packets 1 more than 16,384 bytes, 10 a packet that
 * breaks a rule of RFC 6716 section 3, 11 one that is not SILK in mono. The checks run in that order
 * and the first decides. A refused call answers value 0 and the state it was given, and writes nothing.
 */
#ifndef TIGNAROPS_H
#define TIGNAROPS_H

#include <stddef.h>
#include <stdint.h>

#ifdef __cplusplus
extern "C" {
#endif

/* A reader beside its packet. Only a state that a call handed back, for the same packet, is of use. */
typedef struct {
    uint32_t storage, end_offs, end_window, nend_bits, nbits_total, offs, rng, val, ext, rem, error;
} tg_reader;

typedef struct {
    uint32_t refusal, value;
    tg_reader state;
} tg_read;

/* A reader at the packet's start; value 0. Refused with 1 alone, and then the state is all zeros,
 * on which any other call answers 2. */
tg_read tg_dec_open(const uint8_t *packet, size_t len);

/* The bits taken so far, less those that the range still holds: 1 for a fresh reader. Refusals 1
 * to 3; the state stays as it is. */
tg_read tg_dec_account(const uint8_t *packet, size_t len, tg_reader r);

/* A bit that is 1 with probability 1 in 2^exponent, exponent 1 to 15. Refusals 1 to 4. */
tg_read tg_dec_bit(const uint8_t *packet, size_t len, tg_reader r, uint32_t exponent);

/* A symbol of an inverse table: scale 1 to 8, n from 1 to 256 entries, first below 2^scale, never
 * rising, last 0. Refusals 1 to 5 (4 the scale, 5 the table). */
tg_read tg_dec_icdf(const uint8_t *packet, size_t len, tg_reader r, const uint8_t *table, size_t n, uint32_t scale);

/* A number below total, total 2 to 2^32 - 1. A packet that says more yields total - 1 and sets the
 * state's error to 1; later reads go on. Refusals 1 to 4. */
tg_read tg_dec_uint(const uint8_t *packet, size_t len, tg_reader r, uint32_t total);

/* Raw bits from the packet's end, 1 to 25 of them. Refusals 1 to 4. */
tg_read tg_dec_bits(const uint8_t *packet, size_t len, tg_reader r, uint32_t bits);

/* A writer beside its buffer: rem is the held byte or -1, error 0 or -1. The error stays once a byte
 * found no room; work goes on. Only a state that a call handed back, for the same buffer, is of use. */
typedef struct {
    uint32_t storage, end_offs, end_window, nend_bits, nbits_total, offs, rng, val, ext;
    int32_t rem, error;
} tg_writer;

typedef struct {
    uint32_t refusal, value;
    tg_writer state;
} tg_written;

/* A fresh writer over a buffer, whatever it holds; value 0. Refused with 1 alone, and then the state
 * is all zeros, on which any other call answers 2. */
tg_written tg_enc_open(const uint8_t *buf, size_t len);

/* The bits written so far, as a reader of them will count: 1 for a fresh writer. If it is at most
 * 8 x len after the last symbol, finishing reports no error. Refusals 1 to 3; the state stays. */
tg_written tg_enc_account(const uint8_t *buf, size_t len, tg_writer w);

/* A bit, 0 or 1, exponent 1 to 15. Refusals 1 to 4, and 8. */
tg_written tg_enc_bit(uint8_t *buf, size_t len, tg_writer w, uint32_t value, uint32_t exponent);

/* A symbol of an inverse table (as for tg_dec_icdf) that has a probability above 0. Refusals 1 to 5,
 * and 8. */
tg_written tg_enc_icdf(uint8_t *buf, size_t len, tg_writer w, uint32_t symbol, const uint8_t *table, size_t n, uint32_t scale);

/* A number below total, total 2 to 2^32 - 1. Refusals 1 to 4, and 8. */
tg_written tg_enc_uint(uint8_t *buf, size_t len, tg_writer w, uint32_t value, uint32_t total);

/* Raw bits at the buffer's end, 1 to 25 of them, value below 2^bits. Refusals 1 to 4, and 8. */
tg_written tg_enc_bits(uint8_t *buf, size_t len, tg_writer w, uint32_t value, uint32_t bits);

/* Finishing: the fewest bits that hold whatever follows, all that is held back, the raw bits, zeros
 * between. state.error is 0 if nothing was lost; then a reader of the buffer gives back every symbol.
 * Refusals 1 to 3. */
tg_written tg_enc_done(uint8_t *buf, size_t len, tg_writer w);

typedef struct {
    uint32_t refusal, signal_type, offset_type;
} tg_types;

/* The types of the frame that a packet starts with, before any of it is decoded: active 0 or 1;
 * signal_type 0 to 2 (2 is voiced), offset_type 0 or 1. Refusals 1, then 4 (active); a refusal
 * answers both types as 0. */
tg_types tg_frame_type(const uint8_t *packet, size_t len, uint32_t active);

/* The side indices of a frame. */
typedef struct {
    int8_t gains[4], ltp[4], nlsf[17];
    int16_t lag;
    int8_t contour, signal_type, offset_type, interp, period, ltp_scale, seed;
} tg_indices;

typedef struct {
    uint32_t refusal;
    tg_reader state;
    tg_indices record;
    uint32_t prev_type;
    int16_t prev_lag;
} tg_indices_read;

/* The side indices of a frame: khz 8, 12 or 16; 2 or 4 subframes; active 0 or 1; mode 0 independent,
 * 1 independent without a scale of its own, 2 conditional; prev_type and prev_lag of the frame before,
 * answered anew for the next. Fields of the record that the frame does not code stay as they were.
 * Refusals 1 to 4; a refusal answers record, prev_type and prev_lag as they came. */
tg_indices_read tg_decode_indices(const uint8_t *packet, size_t len, tg_reader r, tg_indices record, uint32_t khz,
                                  uint32_t subframes, uint32_t active, uint32_t mode, uint32_t prev_type,
                                  int16_t prev_lag);

typedef struct {
    uint32_t refusal;
    tg_writer state;
    uint32_t prev_type;
    int16_t prev_lag;
} tg_indices_written;

/* The side indices of a frame, written; numbers as for tg_decode_indices. The lag is coded absolutely
 * and must lie in 0 to 16 x khz - 1; every other field that the frame codes must be one that a reader
 * can give (interp 4 for 2 subframes, ltp_scale 0 but in mode 0). Fields that the frame does not code
 * are not looked at. prev_type and prev_lag are answered as the reader of the frame would answer them.
 * Refusals 1 to 4, and 8 (a field); a refusal answers prev_type and prev_lag as they came. */
tg_indices_written tg_encode_indices(uint8_t *buf, size_t len, tg_writer w, tg_indices record, uint32_t khz,
                                     uint32_t subframes, uint32_t active, uint32_t mode, uint32_t prev_type,
                                     int16_t prev_lag);

/* The pulses of a frame: n is 16 x its blocks, (5 x khz x subframes + 15) / 16 of them; signal_type 0
 * to 2, offset_type 0 or 1. Whatever the pulses held does not matter. Refusals 1 to 4, and 6 (n); a
 * refusal leaves the pulses as they are. */
tg_read tg_decode_pulses(const uint8_t *packet, size_t len, tg_reader r, int16_t *pulses, size_t n, uint32_t khz,
                         uint32_t subframes, uint32_t signal_type, uint32_t offset_type);

/* The pulses of a frame, as tg_decode_pulses takes them, with a rate level 0 to 8: each block's low
 * bits are the fewest, 0 to 10, at which the magnitudes shifted by them total at most 16. Reading back
 * gives the same pulses. Refusals 1 to 4, 6 (n), and 8 for a block that ten low bits do not do for: a
 * magnitude of 17,408 has none. A refusal leaves the buffer as it is. */
tg_written tg_encode_pulses(uint8_t *buf, size_t len, tg_writer w, const int16_t *pulses, size_t n, uint32_t khz,
                            uint32_t subframes, uint32_t signal_type, uint32_t offset_type, uint32_t rate_level);

/* The spectrum indices of a frame: index[0] picks a book's vector, the others one residual each. */
typedef struct {
    int8_t index[17];
} tg_spectrum;

typedef struct {
    uint32_t refusal, moves;
} tg_moves;

/* The line spectrum of the indices, stabilised: n is 10 at 8 and 12 kHz, 16 at 16 kHz; whatever the
 * vector held does not matter. moves is 0 to 20. The values rise and never touch: docs/HERTZ.md has
 * their least distances. Refusals 4 (a rate, a first index outside 0 to 31, another outside -10 to 10)
 * and 6 (n); a refusal leaves the vector as it is. */
tg_moves tg_nlsf_decode(int16_t *vector, size_t n, tg_spectrum indices, uint32_t khz);

/* A vector of n values, 2 to 16, made to keep its m = n + 1 least gaps in 0 to 32,768: at most 20
 * moves, in whole numbers, then the fallback of RFC 6716, section 4.2.7.5.4 (RFC 8251, section 7).
 * Every gap is then kept; moves is 0 exactly for a vector that kept them, and leaves it as it is.
 * Refusals 6 (lengths) and 7 (a gap below 0, a last gap of 0, more than 32,768 together); a refusal
 * leaves the vector as it is. */
tg_moves tg_nlsf_stabilise(int16_t *vector, size_t n, const int16_t *gaps, size_t m);

/* A whole Opus packet: its configuration 0 to 11, the arrangement of its frames (RFC 6716, section 3.2:
 * code 0 to 3), how many there are, 1 to 12, the bytes that padding takes, its length bytes included,
 * and where each frame starts and how many bytes it has, 0 to 1,275; places past count are 0. */
typedef struct {
    uint32_t refusal, config, arrangement, count, padding;
    uint16_t start[12], size[12];
} tg_packet;

/* What a packet holds: frame k is the size[k] bytes from packet + start[k] on, and every call above
 * takes it. A frame of no bytes was not sent. Refusals 1 (more than 16,384 bytes), 10 (a rule of
 * section 3 broken, whatever the configuration and channels), 11 (a configuration above 11, or two
 * channels); a refusal answers all other fields as 0. */
tg_packet tg_packet_read(const uint8_t *packet, size_t len);

typedef struct {
    uint32_t refusal, length;
} tg_packet_written;

/* A packet of count frames, whose n bytes stand one behind the other: length 0 asks for the shortest
 * packet of them, another for exactly so many bytes, filled with padding. The answer is the packet's
 * length; bytes behind it stay as they were. Refusals 1 (a buffer of more than 16,384 bytes), 6 (n is
 * not the sum of the sizes), 8 (no room, or a length below the shortest), 10 (no frame, one of more than
 * 1,275 bytes, more than 120 ms), 11 (a configuration above 11); a refusal leaves the buffer as it is. */
tg_packet_written tg_packet_write(uint8_t *buf, size_t len, uint32_t config, const uint8_t *frames, size_t n,
                                  const uint16_t *sizes, size_t count, uint32_t length);

#ifdef __cplusplus
}
#endif

#endif
