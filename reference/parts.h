/*
 * What the files of the reference share: bits, blocks, answers, and the run that a header
 * describes. Of mahyrei.h the reference uses the constants alone, so that it says everything else
 * itself.
 */
#ifndef REFERENCE_PARTS_H
#define REFERENCE_PARTS_H

#include <stddef.h>
#include <stdint.h>

#include "mahyrei.h"

/* Bit x of these bytes, most significant first. */
static inline unsigned bit_at(const uint8_t *bytes, size_t x) {
    return bytes[x / 8] >> (7 - x % 8) & 1U;
}

static inline void set_bit(uint8_t *bytes, size_t x) {
    bytes[x / 8] = (uint8_t)(bytes[x / 8] | 0x80U >> x % 8);
}

static inline uint64_t bits_at(const uint8_t *bytes, size_t from, size_t count) {
    uint64_t value = 0;
    for (size_t i = 0; i < count; i++) {
        value = value << 1 | bit_at(bytes, from + i);
    }
    return value;
}

/* Bytes of a packed block at a rate that there is. */
static inline size_t block_bytes(uint64_t rate) {
    return rate == MAHYREI_RATE_1_3   ? MAHYREI_BLOCK_BYTES_1_3
           : rate == MAHYREI_RATE_1_2 ? MAHYREI_BLOCK_BYTES_1_2
                                      : MAHYREI_BLOCK_BYTES_2_3;
}

/* k, the information bits of a block. */
static inline size_t block_bits(uint64_t rate) {
    return block_bytes(rate) * 8 - 2;
}

/* An answer of this number and place, and the number of an answer. */
static inline uint64_t answer_of(unsigned number, size_t place) {
    return (uint64_t)place << 8 | number;
}

static inline unsigned number_of(uint64_t answer) {
    return (unsigned)(answer & 255U);
}

/* A header's fields, and what follows from them: the numbers of docs/SPECIFICATION.md. */
struct run {
    size_t rate, m, N, B, F, W, A, copies;
    size_t M, S, k, C, places, symbols, group, slots, slot_bytes;
};

enum { FRAME_MARKER_BYTES = 4, FRAME_MARKER_BITS = 8 * FRAME_MARKER_BYTES };

/* Where the fields of a header of eight bytes end, and of one of ten, whose last is the factor. */
enum { OLD_FIELDS_END = 48, FIELDS_END = 54 };

/* Questions 1 to 7 of a header of eight bytes; of 7, W's range alone. Only the fields are set. */
unsigned reference_ask_old_header(struct run *run, const uint8_t *header, size_t header_len);

/* Questions 1 to 7 and 20 of a header of ten bytes and the marker symbols, if any. */
unsigned reference_ask_header(struct run *run, const uint8_t *header, size_t header_len,
                              const uint8_t *marker, size_t marker_len);

/* Steps 9 and 10: the symbol, markers counted, that symbol t of the words becomes. */
static inline size_t symbol_of(const struct run *run, size_t t) {
    const size_t place = t + t % run->N * run->B * run->N;
    return place / run->S * (run->S + run->W) + run->W + place % run->S;
}

#endif
