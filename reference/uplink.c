/* The uplink: command frames to slots and back, a bit to a byte, one loop per step. */
#include <string.h>

#include "parts.h"
#include "reference.h"

enum {
    FRAME = MAHYREI_UPLINK_FRAME_BYTES,
    CODEBLOCK = MAHYREI_UPLINK_CODEBLOCK_BYTES,
    FRAME_BITS = 8 * FRAME,
    CODEBLOCK_BITS = 2 * FRAME_BITS,
    TURN = 16, /* bits of a piece that the rows between turn by one */
    GROUP = 4  /* slots of a bit: two for it, two guard slots */
};

/* The parity part of frame bits 0, 16, 32 and 48. */
static const uint64_t ROWS[FRAME_BITS / TURN] = {
    UINT64_C(0x0E69166BEF4C0BC2), UINT64_C(0x7766137EBB248418), UINT64_C(0xC480FEB9CD53A713),
    UINT64_C(0x4EAA22FA465EEA11)};

/* Sets one bit, whatever it was. */
static void put_bit(uint8_t *bytes, size_t x, uint8_t bit) {
    const unsigned mask = 0x80U >> x % 8;
    bytes[x / 8] = (uint8_t)(bit ? bytes[x / 8] | mask : bytes[x / 8] & ~mask);
}

/* The parity part of frame bit i: each piece of the row above it, turned right. */
static uint64_t parity_row(size_t i) {
    const uint64_t row = ROWS[i / TURN];
    uint64_t turned = 0;
    for (size_t piece = 0; piece < FRAME_BITS; piece += TURN) {
        const unsigned bits = (unsigned)(row >> (FRAME_BITS - TURN - piece) & 0xFFFF);
        turned = turned << TURN | ((bits | bits << TURN) >> i % TURN & 0xFFFF);
    }
    return turned;
}

/* The parity bits after the bits of a frame. */
static void encode(uint8_t bits[CODEBLOCK_BITS]) {
    uint64_t parity = 0;
    for (size_t i = 0; i < FRAME_BITS; i++) {
        parity ^= bits[i] ? parity_row(i) : 0;
    }
    for (size_t t = 0; t < FRAME_BITS; t++) {
        bits[FRAME_BITS + t] = (uint8_t)(parity >> (FRAME_BITS - 1 - t) & 1);
    }
}

/* Step 7, from the start of its sequence. */
static void randomize(uint8_t bits[CODEBLOCK_BITS]) {
    uint8_t sequence[CODEBLOCK_BITS] = {1, 1, 1, 1, 1, 1, 1, 1};
    for (size_t j = 8; j < CODEBLOCK_BITS; j++) {
        sequence[j] = sequence[j - 1] ^ sequence[j - 3] ^ sequence[j - 5] ^ sequence[j - 8];
    }
    for (size_t j = 0; j < CODEBLOCK_BITS; j++) {
        bits[j] ^= sequence[j];
    }
}

/* Question 8 of both calls: n whole frames and n codeblocks, n from 1 to 64. */
static int lengths_right(size_t frames_len, size_t slots_len) {
    const size_t n = frames_len / FRAME;
    return n >= 1 && n <= MAHYREI_UPLINK_MAX && frames_len == n * FRAME &&
           slots_len == n * CODEBLOCK;
}

uint64_t reference_uplink_write(const uint8_t *frames, size_t frames_len, uint8_t *slots,
                                size_t slots_len) {
    if (!lengths_right(frames_len, slots_len)) {
        return MAHYREI_BAD_LENGTH;
    }
    for (size_t block = 0; block < frames_len / FRAME; block++) {
        uint8_t bits[CODEBLOCK_BITS];
        for (size_t i = 0; i < FRAME_BITS; i++) {
            bits[i] = (uint8_t)bit_at(frames, block * FRAME_BITS + i);
        }
        encode(bits);
        randomize(bits);
        for (size_t x = 0; x < GROUP * CODEBLOCK_BITS; x++) {
            put_bit(slots, block * CODEBLOCK * 8 + x, x % GROUP == bits[x / GROUP]);
        }
    }
    return MAHYREI_ACCEPTED;
}

/* Whether a group is 1000 or 0100. */
static int is_bit(const uint8_t *slots, size_t group) {
    const unsigned four = slots[group / 2] >> (group % 2 == 0 ? 4 : 0) & 15U;
    return four == 8 || four == 4;
}

/* The bits of a codeblock, without the sequence. */
static void receive(const uint8_t *slots, size_t block, uint8_t bits[CODEBLOCK_BITS]) {
    for (size_t j = 0; j < CODEBLOCK_BITS; j++) {
        bits[j] = (uint8_t)bit_at(slots, GROUP * (block * CODEBLOCK_BITS + j) + 1);
    }
    randomize(bits);
}

uint64_t reference_uplink_read(const uint8_t *slots, size_t slots_len, uint8_t *frames,
                               size_t frames_len) {
    if (!lengths_right(frames_len, slots_len)) {
        return MAHYREI_BAD_LENGTH;
    }
    const size_t n = frames_len / FRAME;
    for (size_t group = 0; group < n * CODEBLOCK_BITS; group++) {
        if (!is_bit(slots, group)) {
            return answer_of(MAHYREI_BAD_GROUP, group);
        }
    }
    uint8_t held[MAHYREI_UPLINK_MAX * FRAME] = {0};
    for (size_t block = 0; block < n; block++) {
        uint8_t bits[CODEBLOCK_BITS], again[CODEBLOCK_BITS];
        receive(slots, block, bits);
        memcpy(again, bits, sizeof again);
        encode(again);
        if (memcmp(again, bits, sizeof again) != 0) {
            return answer_of(MAHYREI_BAD_PARITY, block);
        }
        for (size_t i = 0; i < FRAME_BITS; i++) {
            put_bit(held, block * FRAME_BITS + i, bits[i]);
        }
    }
    memcpy(frames, held, frames_len);
    return MAHYREI_ACCEPTED;
}
