/*
 * Blocks to words and back, and the spread of a bit: one loop per step, a bit to a byte between the
 * steps. Steps are numbered as in docs/SPECIFICATION.md.
 */
#include "parts.h"
#include "reference.h"

enum {
    CODED = MAHYREI_WORD_BITS, /* coded bits, and bits of a word */
    CHECK_BITS = 32,
    TERMINATION_BITS = 2,
    BLOCK_MAX = 10046, /* information bits of a block at rate 2/3 */
    INPUTS_MAX = BLOCK_MAX + CHECK_BITS + TERMINATION_BITS
};

static const uint32_t CHECK_POLYNOMIAL = 0x20044009; /* D^32 + D^29 + D^18 + D^14 + D^3 + 1 */

static void unpack(const uint8_t *bytes, uint8_t *bits, size_t count) {
    for (size_t i = 0; i < count; i++) {
        bits[i] = (uint8_t)bit_at(bytes, i);
    }
}

/* Sets every byte that holds one of the bits; the spare bits of the last are 0. */
static void pack(const uint8_t *bits, size_t count, uint8_t *bytes) {
    for (size_t i = 0; i < (count + 7) / 8; i++) {
        bytes[i] = 0;
    }
    for (size_t i = 0; i < count; i++) {
        bytes[i / 8] = (uint8_t)(bytes[i / 8] | bits[i] << (7 - i % 8));
    }
}

/* Step 7: adds the randomizer's sequence, from its start. */
static void randomize(uint8_t *bits, size_t count) {
    uint8_t sequence[BLOCK_MAX];
    for (size_t i = 0; i < 8; i++) {
        sequence[i] = 1;
    }
    for (size_t i = 8; i < count; i++) {
        sequence[i] = sequence[i - 1] ^ sequence[i - 3] ^ sequence[i - 5] ^ sequence[i - 8];
    }
    for (size_t i = 0; i < count; i++) {
        bits[i] ^= sequence[i];
    }
}

/* Step 2: the check register after the randomized block. */
static uint32_t check(const uint8_t *bits, size_t count) {
    uint32_t reg = 0xFFFFFFFF;
    for (size_t i = 0; i < count; i++) {
        uint32_t feedback = reg >> 31 ^ bits[i];
        reg = reg << 1 ^ (feedback ? CHECK_POLYNOMIAL : 0);
    }
    return reg;
}

/* Step 4: the convolutional code from the zero state, punctured by rate. */
static void encode(uint64_t rate, const uint8_t *inputs, size_t count, uint8_t *coded) {
    uint8_t one = 0, two = 0; /* the inputs one and two before */
    size_t place = 0;
    for (size_t i = 0; i < count; i++) {
        uint8_t first = inputs[i] ^ two;
        uint8_t second = first ^ one;
        if (rate != MAHYREI_RATE_2_3 || i % 2 == 0) {
            coded[place++] = first;
        }
        coded[place++] = second;
        if (rate == MAHYREI_RATE_1_3) {
            coded[place++] = second;
        }
        two = one;
        one = inputs[i];
    }
}

/* Steps 2 to 4: the coded bits of a block, after which there is room for the rest of the input. */
static void encode_block(uint64_t rate, uint8_t inputs[INPUTS_MAX], uint8_t coded[CODED]) {
    const size_t k = block_bits(rate);
    const uint32_t reg = check(inputs, k);
    for (size_t i = 0; i < CHECK_BITS; i++) {
        inputs[k + i] = (uint8_t)(reg >> (31 - i) & 1);
    }
    for (size_t i = 0; i < TERMINATION_BITS; i++) { /* step 3 */
        inputs[k + CHECK_BITS + i] = 0;
    }
    encode(rate, inputs, k + CHECK_BITS + TERMINATION_BITS, coded);
}

/* Step 5: the coded bit that output place j takes. */
static size_t interleaved_place(size_t j) {
    uint64_t wide = j;
    return (size_t)((11 * wide + 210 * wide * wide) % CODED);
}

/* The place in step 4's order of the second output for input bit i. */
static size_t second_output(uint64_t rate, size_t i) {
    if (rate == MAHYREI_RATE_1_3) {
        return 3 * i + 1;
    }
    if (rate == MAHYREI_RATE_1_2) {
        return 2 * i + 1;
    }
    return i % 2 == 0 ? 3 * i / 2 + 1 : (3 * i + 1) / 2;
}

uint64_t reference_word_write(uint64_t rate, const uint8_t *block, size_t block_len, uint8_t *word,
                              size_t word_len) {
    if (rate > MAHYREI_RATE_2_3) {
        return MAHYREI_BAD_RATE;
    }
    if (block_len != block_bytes(rate) || word_len != MAHYREI_WORD_BYTES) {
        return MAHYREI_BAD_LENGTH;
    }

    uint8_t inputs[INPUTS_MAX], coded[CODED], bits[CODED];
    unpack(block, inputs, block_bits(rate));
    randomize(inputs, block_bits(rate));
    encode_block(rate, inputs, coded);
    for (size_t j = 0; j < CODED; j++) { /* step 5 */
        bits[j] = coded[interleaved_place(j)];
    }
    for (size_t j = 1; j < CODED; j++) { /* step 6 */
        bits[j] ^= bits[j - 1];
    }
    pack(bits, CODED, word);
    return MAHYREI_ACCEPTED;
}

uint64_t reference_word_read(uint64_t rate, const uint8_t *word, size_t word_len, uint8_t *block,
                             size_t block_len) {
    if (rate > MAHYREI_RATE_2_3) {
        return MAHYREI_BAD_RATE;
    }
    if (word_len != MAHYREI_WORD_BYTES || block_len != block_bytes(rate)) {
        return MAHYREI_BAD_LENGTH;
    }

    uint8_t bits[CODED], coded[CODED], again[CODED], inputs[INPUTS_MAX];
    const size_t k = block_bits(rate), count = k + CHECK_BITS + TERMINATION_BITS;
    unpack(word, bits, CODED);
    for (size_t j = CODED - 1; j > 0; j--) { /* step 6 undone */
        bits[j] ^= bits[j - 1];
    }
    for (size_t j = 0; j < CODED; j++) { /* step 5 undone */
        coded[interleaved_place(j)] = bits[j];
    }
    uint8_t one = 0, two = 0;
    for (size_t i = 0; i < count; i++) { /* step 4 undone, from the second output alone */
        inputs[i] = coded[second_output(rate, i)] ^ one ^ two;
        two = one;
        one = inputs[i];
    }

    encode(rate, inputs, count, again);
    for (size_t i = 0; i < CODED; i++) {
        if (again[i] != coded[i]) {
            return answer_of(MAHYREI_BAD_CODE, i);
        }
    }
    for (size_t i = 0; i < TERMINATION_BITS; i++) {
        if (inputs[k + CHECK_BITS + i] != 0) {
            return MAHYREI_BAD_TERMINATION;
        }
    }
    const uint32_t reg = check(inputs, k);
    for (size_t i = 0; i < CHECK_BITS; i++) {
        if (inputs[k + i] != (reg >> (31 - i) & 1)) {
            return MAHYREI_BAD_CHECK;
        }
    }
    randomize(inputs, k); /* step 7 undone */
    pack(inputs, k, block);
    return MAHYREI_ACCEPTED;
}

/* The coded bits of a block of zeros, and of the same with one bit set. */
uint64_t reference_bit_spread(uint64_t rate, uint64_t bit, uint8_t *places, size_t places_len) {
    if (rate > MAHYREI_RATE_2_3) {
        return MAHYREI_BAD_RATE;
    }
    if (places_len != MAHYREI_WORD_BYTES) {
        return MAHYREI_BAD_LENGTH;
    }
    if (bit >= block_bits(rate)) {
        return MAHYREI_BAD_BIT;
    }
    uint8_t inputs[INPUTS_MAX] = {0}, before[CODED], after[CODED];
    encode_block(rate, inputs, before);
    inputs[bit] = 1;
    encode_block(rate, inputs, after);
    for (size_t j = 0; j < CODED; j++) {
        after[j] ^= before[j];
    }
    pack(after, CODED, places);
    return MAHYREI_ACCEPTED;
}
