/*
 * A pass: one word call after another. The blocks of a pass that is read are held back until the
 * last word has been judged.
 */
#include <string.h>

#include "parts.h"
#include "reference.h"

/* Questions 2 and 8 of both calls. */
static unsigned ask(uint64_t rate, size_t blocks_len, size_t words_len) {
    if (rate > MAHYREI_RATE_2_3) {
        return MAHYREI_BAD_RATE;
    }
    const size_t n = words_len / MAHYREI_WORD_BYTES;
    const int right = n >= 1 && n <= MAHYREI_PASS_MAX && words_len == n * MAHYREI_WORD_BYTES &&
                      blocks_len == n * block_bytes(rate);
    return right ? MAHYREI_ACCEPTED : MAHYREI_BAD_LENGTH;
}

uint64_t reference_pass_write(uint64_t rate, const uint8_t *blocks, size_t blocks_len,
                              uint8_t *words, size_t words_len) {
    const unsigned number = ask(rate, blocks_len, words_len);
    if (number != MAHYREI_ACCEPTED) {
        return number;
    }
    const size_t len = block_bytes(rate);
    for (size_t i = 0; i < words_len / MAHYREI_WORD_BYTES; i++) {
        reference_word_write(rate, blocks + i * len, len, words + i * MAHYREI_WORD_BYTES,
                             MAHYREI_WORD_BYTES); /* refuses no block of this length */
    }
    return MAHYREI_ACCEPTED;
}

uint64_t reference_pass_read(uint64_t rate, const uint8_t *words, size_t words_len, uint8_t *blocks,
                             size_t blocks_len) {
    uint8_t held[MAHYREI_PASS_MAX * MAHYREI_BLOCK_BYTES_MAX];
    const unsigned number = ask(rate, blocks_len, words_len);
    if (number != MAHYREI_ACCEPTED) {
        return number;
    }
    const size_t len = block_bytes(rate);
    for (size_t i = 0; i < words_len / MAHYREI_WORD_BYTES; i++) {
        const uint64_t answer = reference_word_read(rate, words + i * MAHYREI_WORD_BYTES,
                                                    MAHYREI_WORD_BYTES, held + i * len, len);
        if (answer != MAHYREI_ACCEPTED) {
            return answer_of(number_of(answer), i);
        }
    }
    memcpy(blocks, held, blocks_len);
    return MAHYREI_ACCEPTED;
}
