/*
 * Test of the two pass calls from C: beside the word calls put one by one, damaged words, and
 * refusals of every number with the lent bytes unchanged.
 *
 * The sanitizers watch this program but not the library, which is not built with them. So each
 * slice is lent from pages of its own: it ends where a page begins that may not be touched, the
 * bytes before it are compared after the call, and the slice that a call reads is write-protected.
 * Large buffers are static, since the test also runs on a small stack.
 */
#define _DEFAULT_SOURCE /* MAP_ANONYMOUS */
#include <inttypes.h>
#include <stdbool.h>
#include <stdio.h>
#include <stdlib.h>
#include <string.h>
#include <sys/mman.h>

#include "check.h"
#include "mahyrei.h"
#include "runs.h"

enum { RATES = 3, WORD = MAHYREI_WORD_BYTES, MOST = MAHYREI_PASS_MAX };

static unsigned long met[2][256]; /* answers by call and number */

/* ---- lent slices */

enum { PAGE = 4096, AREA = 100 * PAGE, MARGIN = 64 };

struct lent {
    uint8_t *area; /* the slice is at its end; the next page may not be touched */
    uint8_t *slice;
    size_t len;
    uint8_t before[AREA]; /* what margin and slice held when they were lent */
};

static struct lent lent_blocks, lent_words;

static void map_area(struct lent *lent) {
    lent->area =
        mmap(NULL, AREA + PAGE, PROT_READ | PROT_WRITE, MAP_PRIVATE | MAP_ANONYMOUS, -1, 0);
    if (lent->area == MAP_FAILED || mprotect(lent->area + AREA, PAGE, PROT_NONE) != 0) {
        perror("mmap");
        exit(1);
    }
}

static void protect(const struct lent *lent, int protection) {
    if (mprotect(lent->area, AREA, protection) != 0) {
        perror("mprotect");
        exit(1);
    }
}

/* A slice of random bytes, with random bytes before it. */
static void lend(struct lent *lent, size_t len) {
    if (len + MARGIN > AREA) {
        fprintf(stderr, "pass_calls.c: %zu bytes are too many to lend\n", len);
        exit(1);
    }
    lent->slice = lent->area + AREA - len;
    lent->len = len;
    fill_random(lent->slice - MARGIN, len + MARGIN);
}

static void lend_copy(struct lent *lent, const uint8_t *bytes, size_t len) {
    lend(lent, len);
    memcpy(lent->slice, bytes, len);
}

static void lend_null(struct lent *lent) {
    lend(lent, 0);
    lent->slice = NULL;
}

static uint8_t *margin_of(const struct lent *lent) {
    return lent->area + AREA - lent->len - MARGIN;
}

/* One call on the lent slices, and what holds of their bytes after every call. */
static uint64_t call(bool write, uint64_t rate) {
    struct lent *const from = write ? &lent_blocks : &lent_words;
    struct lent *const to = write ? &lent_words : &lent_blocks;
    memcpy(from->before, margin_of(from), from->len + MARGIN);
    memcpy(to->before, margin_of(to), to->len + MARGIN);
    protect(from, PROT_READ);
    const uint64_t answer =
        write ? mahyrei_pass_write(rate, from->slice, from->len, to->slice, to->len)
              : mahyrei_pass_read(rate, from->slice, from->len, to->slice, to->len);
    protect(from, PROT_READ | PROT_WRITE);
    met[write][mahyrei_answer_number(answer)]++;

    CHECK_FOR(rate, memcmp(margin_of(from), from->before, from->len + MARGIN) == 0);
    const bool accepted = answer == MAHYREI_ACCEPTED;
    CHECK_FOR(rate, memcmp(margin_of(to), to->before, accepted ? MARGIN : to->len + MARGIN) == 0);
    return answer;
}

/* ---- passes */

static uint8_t blocks[AREA], words[AREA];

/* n random blocks, their spare bits too, and the words that the pass writer makes of them. */
static void write_pass(uint64_t rate, size_t n) {
    const size_t len = mahyrei_word_block_bytes(rate);
    fill_random(blocks, n * len);
    lend_copy(&lent_blocks, blocks, n * len);
    lend(&lent_words, n * WORD);
    CHECK_FOR(rate, call(true, rate) == MAHYREI_ACCEPTED);
    memcpy(words, lent_words.slice, n * WORD);
}

static uint64_t read_pass(uint64_t rate, size_t n) {
    lend_copy(&lent_words, words, n * WORD);
    lend(&lent_blocks, n * mahyrei_word_block_bytes(rate));
    return call(false, rate);
}

/* Both ways, and piece by piece what the word calls do. */
static void test_singly(uint64_t rate, size_t n) {
    const size_t len = mahyrei_word_block_bytes(rate);
    uint8_t word[WORD], block[MAHYREI_BLOCK_BYTES_MAX];
    write_pass(rate, n);
    CHECK_FOR(rate, read_pass(rate, n) == MAHYREI_ACCEPTED);
    for (size_t i = 0; i < n; i++) {
        CHECK_FOR(rate,
                  mahyrei_word_write(rate, blocks + i * len, len, word, WORD) == MAHYREI_ACCEPTED);
        CHECK_FOR(rate, memcmp(word, words + i * WORD, WORD) == 0);
        CHECK_FOR(rate, mahyrei_word_read(rate, word, WORD, block, len) == MAHYREI_ACCEPTED);
        CHECK_FOR(rate, memcmp(block, lent_blocks.slice + i * len, len) == 0);
        CHECK_FOR(rate, memcmp(block, blocks + i * len, len - 1) == 0);
    }
}

/* Damages word i: the number that mahyrei_word_read gives for it. */
static unsigned damage(uint64_t rate, size_t i, unsigned number) {
    uint8_t *const word = words + i * WORD;
    const size_t inputs = code_inputs(rate);
    if (number == MAHYREI_BAD_CODE) {
        flip(word, random_below(MAHYREI_WORD_BITS));
    } else if (number == MAHYREI_BAD_TERMINATION) {
        flip_code_input(rate, word, inputs - 1 - random_below(2));
    } else {
        flip_code_input(rate, word, random_below(inputs - 2));
    }
    uint8_t block[MAHYREI_BLOCK_BYTES_MAX];
    const uint64_t answer =
        mahyrei_word_read(rate, word, WORD, block, mahyrei_word_block_bytes(rate));
    CHECK_FOR(rate, mahyrei_answer_number(answer) == number);
    return number;
}

/* Each number, in word 0, a middle one and the last; then in two at once, and the lower counts,
 * with its own number, whatever is wrong with the other. */
static void test_damage(uint64_t rate, size_t n) {
    const size_t places[] = {0, n / 2, n - 1};
    for (unsigned number = MAHYREI_BAD_CODE; number <= MAHYREI_BAD_CHECK; number++) {
        for (size_t i = 0; i < 3; i++) {
            write_pass(rate, n);
            damage(rate, places[i], number);
            CHECK_FOR(rate, read_pass(rate, n) == places[i] * 256 + number);
        }
        for (unsigned other = MAHYREI_BAD_CODE; other <= MAHYREI_BAD_CHECK; other++) {
            const size_t high = 1 + random_below(n - 1), low = random_below(high);
            write_pass(rate, n);
            damage(rate, high, other);
            damage(rate, low, number);
            CHECK_FOR(rate, read_pass(rate, n) == low * 256 + number);
        }
    }
}

/* Both calls with slices of these lengths, which hold anything. */
static void test_refused(uint64_t rate, size_t blocks_len, size_t words_len, unsigned number) {
    for (int write = 0; write < 2; write++) {
        lend(&lent_blocks, blocks_len);
        lend(&lent_words, words_len);
        CHECK_FOR(rate, call(write, rate) == number);
    }
}

/* Question 2 comes first, whatever the lengths. */
static void test_refused_rates(void) {
    static const uint64_t WRONG[] = {3, 4, 256, 258, UINT64_C(1) << 32, UINT64_MAX};
    for (size_t i = 0; i < sizeof WRONG / sizeof WRONG[0]; i++) {
        test_refused(WRONG[i], 0, 0, MAHYREI_BAD_RATE);
        for (uint64_t like = 0; like < RATES; like++) {
            test_refused(WRONG[i], 2 * mahyrei_word_block_bytes(like), 2 * WORD, MAHYREI_BAD_RATE);
            test_refused(WRONG[i], mahyrei_word_block_bytes(like), WORD + 1, MAHYREI_BAD_RATE);
        }
        for (int write = 0; write < 2; write++) {
            lend_null(&lent_blocks);
            lend_null(&lent_words);
            CHECK_FOR(WRONG[i], call(write, WRONG[i]) == MAHYREI_BAD_RATE);
        }
    }
}

/* Question 8: none, more than 211, a broken block or word, and slices of different counts. */
static void test_refused_lengths(uint64_t rate) {
    const size_t len = mahyrei_word_block_bytes(rate), counts[] = {1, 2, 100, MOST - 1, MOST};
    test_refused(rate, 0, 0, MAHYREI_BAD_LENGTH);
    test_refused(rate, len, 0, MAHYREI_BAD_LENGTH);
    test_refused(rate, 0, WORD, MAHYREI_BAD_LENGTH);
    test_refused(rate, 1, 1, MAHYREI_BAD_LENGTH);
    test_refused(rate, WORD, len, MAHYREI_BAD_LENGTH);
    test_refused(rate, (MOST + 1) * len, (MOST + 1) * WORD, MAHYREI_BAD_LENGTH);
    for (size_t i = 0; i < sizeof counts / sizeof counts[0]; i++) {
        const size_t n = counts[i];
        test_refused(rate, n * len - 1, n * WORD, MAHYREI_BAD_LENGTH);
        test_refused(rate, n * len + 1, n * WORD, MAHYREI_BAD_LENGTH);
        test_refused(rate, n * len, n * WORD - 1, MAHYREI_BAD_LENGTH);
        test_refused(rate, n * len, n * WORD + 1, MAHYREI_BAD_LENGTH);
        test_refused(rate, n * len - 1, n * WORD - 1, MAHYREI_BAD_LENGTH);
        test_refused(rate, n * len, (n - 1) * WORD, MAHYREI_BAD_LENGTH);
        test_refused(rate, n * len, (n + 1) * WORD, MAHYREI_BAD_LENGTH);
        test_refused(rate, (n - 1) * len, n * WORD, MAHYREI_BAD_LENGTH);
        test_refused(rate, (n + 1) * len, n * WORD, MAHYREI_BAD_LENGTH);
        test_refused(rate, n * mahyrei_word_block_bytes((rate + 1) % RATES), n * WORD,
                     MAHYREI_BAD_LENGTH);
    }
    for (int write = 0; write < 2; write++) {
        lend_null(&lent_blocks);
        lend_null(&lent_words);
        CHECK_FOR(rate, call(write, rate) == MAHYREI_BAD_LENGTH);
        lend(&lent_words, WORD);
        CHECK_FOR(rate, call(write, rate) == MAHYREI_BAD_LENGTH);
        lend(&lent_blocks, len);
        lend_null(&lent_words);
        CHECK_FOR(rate, call(write, rate) == MAHYREI_BAD_LENGTH);
    }
}

static void test_every_number_met(void) {
    unsigned long total = 0, expected = 0;
    for (unsigned number = 0; number < 256; number++) {
        const bool written = number == 0 || number == 2 || number == 8;
        const bool read = written || (number >= MAHYREI_BAD_CODE && number <= MAHYREI_BAD_CHECK);
        total += met[0][number] + met[1][number];
        expected += (written ? met[1][number] : 0) + (read ? met[0][number] : 0);
        CHECK_FOR(number, !written || met[1][number] > 0);
        CHECK_FOR(number, !read || met[0][number] > 0);
    }
    CHECK_FOR(0, total == expected);
    printf("pass_calls: %lu calls, %lu checks, %lu failed\n", total, checks, failures);
}

int main(void) {
    map_area(&lent_blocks);
    map_area(&lent_words);
    test_refused_rates();
    for (uint64_t rate = 0; rate < RATES; rate++) {
        for (size_t n = 1; n <= 7; n++) {
            test_singly(rate, n);
        }
        test_singly(rate, MOST - 1);
        test_singly(rate, MOST); /* 132,086, 198,551 and 265,016 bytes of blocks */
        test_damage(rate, 2);
        test_damage(rate, 9);
        test_refused_lengths(rate);
        write_pass(rate, MOST);
        damage(rate, MOST - 1, MAHYREI_BAD_CHECK);
        CHECK_FOR(rate, read_pass(rate, MOST) == (MOST - 1) * 256 + MAHYREI_BAD_CHECK);
    }
    test_every_number_met();
    return failures == 0 ? EXIT_SUCCESS : EXIT_FAILURE;
}
