/*
 * A pass beside the word calls put one by one and beside the plain C version: microseconds for all
 * of it, on the same blocks, in one run. The three take turns, and the best turn of each counts, so
 * a busy machine harms all alike and little.
 */
#define _POSIX_C_SOURCE 199309L /* clock_gettime */
#include <string.h>

#include "mahyrei.h"
#include "reference.h"
#include "timing.h"

enum { WAYS = 3, RATES = 3, MOST = MAHYREI_PASS_MAX, WORD = MAHYREI_WORD_BYTES, WARM_UP = 3 };

static uint8_t blocks[MOST * MAHYREI_BLOCK_BYTES_MAX], back[MOST * MAHYREI_BLOCK_BYTES_MAX];
static uint8_t words[MOST * WORD], written[MOST * WORD];

/* ---- what is timed, each for a pass of n */

typedef uint64_t timed(uint64_t rate, size_t n);

static uint64_t write_pass(uint64_t rate, size_t n) {
    return mahyrei_pass_write(rate, blocks, n * mahyrei_word_block_bytes(rate), written, n * WORD);
}

static uint64_t write_singly(uint64_t rate, size_t n) {
    const size_t len = mahyrei_word_block_bytes(rate);
    uint64_t answers = 0;
    for (size_t i = 0; i < n; i++) {
        answers |= mahyrei_word_write(rate, blocks + i * len, len, written + i * WORD, WORD);
    }
    return answers;
}

static uint64_t write_plainly(uint64_t rate, size_t n) {
    return reference_pass_write(rate, blocks, n * mahyrei_word_block_bytes(rate), written,
                                n * WORD);
}

static uint64_t read_pass(uint64_t rate, size_t n) {
    return mahyrei_pass_read(rate, words, n * WORD, back, n * mahyrei_word_block_bytes(rate));
}

static uint64_t read_singly(uint64_t rate, size_t n) {
    const size_t len = mahyrei_word_block_bytes(rate);
    uint64_t answers = 0;
    for (size_t i = 0; i < n; i++) {
        answers |= mahyrei_word_read(rate, words + i * WORD, WORD, back + i * len, len);
    }
    return answers;
}

static uint64_t read_plainly(uint64_t rate, size_t n) {
    return reference_pass_read(rate, words, n * WORD, back, n * mahyrei_word_block_bytes(rate));
}

/* Nothing is timed that is not right: all write the same words and read the same blocks. */
static void compare(uint64_t rate, size_t n) {
    static uint8_t singly[sizeof back];
    const size_t len = mahyrei_word_block_bytes(rate);
    require(write_singly(rate, n) == 0, "a block is refused");
    memcpy(words, written, n * WORD);
    memset(written, 0, sizeof written);
    require(write_pass(rate, n) == 0 && memcmp(words, written, n * WORD) == 0,
            "a pass is written in another way than its blocks");
    memset(written, 0, sizeof written);
    require(write_plainly(rate, n) == 0 && memcmp(words, written, n * WORD) == 0,
            "plain C writes another pass");
    require(read_singly(rate, n) == 0, "a word is refused");
    memcpy(singly, back, n * len);
    memset(back, 0xFF, sizeof back);
    require(read_pass(rate, n) == 0 && memcmp(singly, back, n * len) == 0,
            "a pass is read in another way than its words");
    memset(back, 0xFF, sizeof back);
    require(read_plainly(rate, n) == 0 && memcmp(singly, back, n * len) == 0,
            "plain C reads another pass");
}

static double once(timed *call, uint64_t rate, size_t n, size_t times) {
    const double start = now();
    for (size_t i = 0; i < times; i++) {
        require(call(rate, n) == 0, "a call refused while it was timed");
    }
    return (now() - start) / (double)times;
}

/* A pass of one is over in microseconds: a turn has many of them. */
static void row(const char *name, timed *const ways[WAYS], uint64_t rate, size_t n) {
    static const char *const RATE_NAMES[RATES] = {"1/3", "1/2", "2/3"};
    const size_t times = n == 1 ? 200 : 1;
    double best[WAYS] = {1e9, 1e9, 1e9};
    for (int turn = -WARM_UP; turn < 60; turn++) {
        for (int i = 0; i < WAYS; i++) {
            const double took = once(ways[i], rate, n, times);
            best[i] = turn >= 0 && took < best[i] ? took : best[i];
        }
    }
    printf("%-5s %-18s %6zu %10.1f %10.1f %15.3f %9.1f %10.1f\n", RATE_NAMES[rate], name, n,
           best[0], best[1], best[0] / best[1], best[2], best[2] / best[0]);
}

int main(void) {
    static timed *const WRITE[WAYS] = {write_pass, write_singly, write_plainly};
    static timed *const READ[WAYS] = {read_pass, read_singly, read_plainly};
    printf("microseconds a pass, and the same words by the word calls, the best turn of each\n");
    printf("%-5s %-18s %6s %10s %10s %15s %9s %10s\n", "rate", "call", "blocks", "pass",
           "one by one", "pass/one by one", "plain C", "plain/pass");
    fill(blocks, sizeof blocks);
    for (uint64_t rate = 0; rate < RATES; rate++) {
        compare(rate, MOST);
        row("mahyrei_pass_write", WRITE, rate, MOST);
        row("mahyrei_pass_read", READ, rate, MOST);
        row("mahyrei_pass_write", WRITE, rate, 1);
        row("mahyrei_pass_read", READ, rate, 1);
    }
    return 0;
}
