/*
 * The library beside the plain C version: microseconds a word, on the same blocks, in one run.
 *
 * The two take turns, batch by batch, and the best batch of each counts, so a busy machine harms
 * both alike and little. Output slices are not cleared between calls.
 */
#define _POSIX_C_SOURCE 199309L /* clock_gettime */
#include <string.h>

#include "mahyrei.h"
#include "reference.h"
#include "timing.h"

enum { RATES = 3, WORDS = 64, BATCHES = 60, WARM_UP = 5 };

typedef uint64_t call_type(uint64_t rate, const uint8_t *from, size_t from_len, uint8_t *to,
                           size_t to_len);

static uint8_t blocks[WORDS][MAHYREI_BLOCK_BYTES_MAX];
static uint8_t words[WORDS][MAHYREI_WORD_BYTES];
static uint8_t written[MAHYREI_WORD_BYTES], read_back[MAHYREI_BLOCK_BYTES_MAX];

static void fill_blocks(uint64_t rate) {
    for (size_t i = 0; i < WORDS; i++) {
        fill(blocks[i], mahyrei_word_block_bytes(rate));
    }
}

/* Whether this block was read back: its bits, and zeros for the two spare ones. */
static int is_read_back(const uint8_t *block, size_t len) {
    return memcmp(read_back, block, len - 1) == 0 && read_back[len - 1] == (block[len - 1] & 0xFC);
}

/* Nothing is timed that is not right: both write and read each block alike, and refuse alike. */
static void compare(uint64_t rate) {
    const size_t len = mahyrei_word_block_bytes(rate);
    for (size_t i = 0; i < WORDS; i++) {
        require(mahyrei_word_write(rate, blocks[i], len, words[i], MAHYREI_WORD_BYTES) == 0 &&
                    reference_word_write(rate, blocks[i], len, written, MAHYREI_WORD_BYTES) == 0 &&
                    memcmp(words[i], written, MAHYREI_WORD_BYTES) == 0,
                "library and plain C write other words");
        require(mahyrei_word_read(rate, words[i], MAHYREI_WORD_BYTES, read_back, len) == 0 &&
                    is_read_back(blocks[i], len),
                "the library reads another block");
        memset(read_back, 0, len);
        require(reference_word_read(rate, words[i], MAHYREI_WORD_BYTES, read_back, len) == 0 &&
                    is_read_back(blocks[i], len),
                "plain C reads another block");
        written[i] ^= 1;
        require(mahyrei_word_read(rate, written, MAHYREI_WORD_BYTES, read_back, len) ==
                    reference_word_read(rate, written, MAHYREI_WORD_BYTES, read_back, len),
                "library and plain C refuse in other ways");
    }
}

/* Microseconds a word over one batch. */
static double batch(call_type *call, int write, uint64_t rate) {
    const size_t len = mahyrei_word_block_bytes(rate);
    uint64_t answers = 0;
    const double start = now();
    for (size_t i = 0; i < WORDS; i++) {
        answers |= write ? call(rate, blocks[i], len, written, MAHYREI_WORD_BYTES)
                         : call(rate, words[i], MAHYREI_WORD_BYTES, read_back, len);
    }
    const double took = now() - start;
    require(answers == 0, "a call refused while it was timed");
    return took / WORDS;
}

static void row(const char *name, call_type *library, call_type *plain, int write, uint64_t rate) {
    static const char *const RATE_NAMES[RATES] = {"1/3", "1/2", "2/3"};
    double best_library = 1e9, best_plain = 1e9;
    for (int i = 0; i < BATCHES + WARM_UP; i++) {
        const double took_library = batch(library, write, rate);
        const double took_plain = batch(plain, write, rate);
        if (i >= WARM_UP) {
            best_library = took_library < best_library ? took_library : best_library;
            best_plain = took_plain < best_plain ? took_plain : best_plain;
        }
    }
    printf("%-5s %-18s %9.2f %9.2f %15.1f\n", RATE_NAMES[rate], name, best_library, best_plain,
           best_plain / best_library);
}

int main(void) {
    printf("microseconds a word, best of %d batches of %d words\n", BATCHES, WORDS);
    printf("%-5s %-18s %9s %9s %15s\n", "rate", "call", "library", "plain C", "plain/library");
    for (uint64_t rate = 0; rate < RATES; rate++) {
        fill_blocks(rate);
        compare(rate);
        row("mahyrei_word_write", mahyrei_word_write, reference_word_write, 1, rate);
        row("mahyrei_word_read", mahyrei_word_read, reference_word_read, 0, rate);
    }
    return 0;
}
