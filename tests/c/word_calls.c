/*
 * Test of the two word calls from C: known answers, round trips, damaged words, and refusals of
 * every number with the lent bytes unchanged.
 *
 * The sanitizers watch this program but not the library, which is not built with them. So each
 * slice is lent from pages of its own: it ends where a page begins that may not be touched, the
 * bytes before it are compared after the call, and the slice that a call reads is write-protected.
 */
#define _DEFAULT_SOURCE /* MAP_ANONYMOUS */
#include <inttypes.h>
#include <stdbool.h>
#include <stdio.h>
#include <stdlib.h>
#include <string.h>
#include <sys/mman.h>

#include "check.h"
#include "mahyrei.h"

enum {
    RATES = 3,
    CHECK_BITS = 32,
    BURST = 18 /* the longest stretch of flips that is refused before the check */
};

static unsigned long met[256]; /* answers by number */

/* ---- lent slices */

enum { PAGE = 4096 };

struct lent {
    uint8_t *page; /* a page for the slice at its end; the next page may not be touched */
    uint8_t *slice;
    size_t len;
    uint8_t before[PAGE]; /* what the page held when it was lent */
};

static struct lent lent_block, lent_word;

static void map_pages(struct lent *lent) {
    lent->page = mmap(NULL, 2 * PAGE, PROT_READ | PROT_WRITE, MAP_PRIVATE | MAP_ANONYMOUS, -1, 0);
    if (lent->page == MAP_FAILED || mprotect(lent->page + PAGE, PAGE, PROT_NONE) != 0) {
        perror("mmap");
        exit(1);
    }
}

static void protect(const struct lent *lent, int protection) {
    if (mprotect(lent->page, PAGE, protection) != 0) {
        perror("mprotect");
        exit(1);
    }
}

/* A slice of random bytes, with random bytes before it. */
static void lend(struct lent *lent, size_t len) {
    fill_random(lent->page, PAGE);
    lent->slice = lent->page + PAGE - len;
    lent->len = len;
}

static void lend_copy(struct lent *lent, const uint8_t *bytes, size_t len) {
    lend(lent, len);
    memcpy(lent->slice, bytes, len);
}

/* What reading gives: the block's bits, and its two spare bits as zero. */
static bool block_is(const uint8_t *block) {
    const size_t last = lent_block.len - 1;
    return memcmp(lent_block.slice, block, last) == 0 &&
           lent_block.slice[last] == (block[last] & 0xFC);
}

/* One call on the lent slices, and what holds of their bytes after every call. */
static uint64_t call(bool write, uint64_t rate) {
    struct lent *from = write ? &lent_block : &lent_word;
    struct lent *to = write ? &lent_word : &lent_block;
    memcpy(from->before, from->page, PAGE);
    memcpy(to->before, to->page, PAGE);
    protect(from, PROT_READ);
    const uint64_t answer =
        write ? mahyrei_word_write(rate, from->slice, from->len, to->slice, to->len)
              : mahyrei_word_read(rate, from->slice, from->len, to->slice, to->len);
    protect(from, PROT_READ | PROT_WRITE);
    met[mahyrei_answer_number(answer)]++;

    CHECK_FOR(rate, memcmp(from->page, from->before, PAGE) == 0);
    const bool accepted = answer == MAHYREI_ACCEPTED;
    CHECK_FOR(rate, memcmp(to->page, to->before, accepted ? PAGE - to->len : PAGE) == 0);
    return answer;
}

/* ---- blocks and words; the spare bits of a block hold anything */

static void zero_block(uint8_t *block, size_t len) {
    memset(block, 0, len);
}

static void counting_block(uint8_t *block, size_t len) {
    for (size_t i = 0; i < len; i++) {
        block[i] = (uint8_t)i;
    }
}

static void ones_block(uint8_t *block, size_t len) {
    memset(block, 0xFF, len);
}

static void write_word(uint64_t rate, const uint8_t *block, uint8_t *word) {
    lend_copy(&lent_block, block, mahyrei_word_block_bytes(rate));
    lend(&lent_word, MAHYREI_WORD_BYTES);
    CHECK_FOR(rate, call(true, rate) == MAHYREI_ACCEPTED);
    memcpy(word, lent_word.slice, MAHYREI_WORD_BYTES);
}

static uint64_t read_word(uint64_t rate, const uint8_t *word) {
    lend_copy(&lent_word, word, MAHYREI_WORD_BYTES);
    lend(&lent_block, mahyrei_word_block_bytes(rate));
    return call(false, rate);
}

static void flip(uint8_t *word, size_t place) {
    word[place / 8] = (uint8_t)(word[place / 8] ^ 0x80 >> place % 8);
}

/* Changes one coded bit, the accumulator and the interleaver undone: the accumulator carries the
 * change from the output place that takes the coded bit on to the end of the word. */
static void flip_coded(uint8_t *word, size_t coded_place) {
    static size_t output_place[MAHYREI_WORD_BITS];
    static bool ready;
    for (uint64_t j = 0; !ready && j < MAHYREI_WORD_BITS; j++) {
        output_place[(11 * j + 210 * j * j) % MAHYREI_WORD_BITS] = (size_t)j;
    }
    ready = true;
    for (size_t j = output_place[coded_place]; j < MAHYREI_WORD_BITS; j++) {
        flip(word, j);
    }
}

/* Input bits of the convolutional code: the block, its check and two termination bits. */
static size_t input_bits(uint64_t rate) {
    return mahyrei_word_block_bytes(rate) * 8 - 2 + CHECK_BITS + 2;
}

/* The first coded place of input bit i: of its first output where that is kept, else its second. */
static size_t coded_place(uint64_t rate, size_t i) {
    return rate == MAHYREI_RATE_1_3 ? 3 * i : rate == MAHYREI_RATE_1_2 ? 2 * i : (3 * i + 1) / 2;
}

/* Changes one input bit: those coded bits in which it is a term. */
static void flip_input(uint64_t rate, uint8_t *word, size_t i) {
    static const bool FIRST[3] = {true, false, true}; /* 1 + D^2 */
    for (size_t delay = 0; delay < 3 && i + delay < input_bits(rate); delay++) {
        const size_t step = i + delay;
        size_t place = coded_place(rate, step);
        if (rate != MAHYREI_RATE_2_3 || step % 2 == 0) {
            if (FIRST[delay]) {
                flip_coded(word, place);
            }
            place++;
        }
        flip_coded(word, place); /* 1 + D + D^2 */
        if (rate == MAHYREI_RATE_1_3) {
            flip_coded(word, place + 1);
        }
    }
}

/* ---- the tests */

static uint64_t fnv1a(const uint8_t *bytes, size_t len) {
    uint64_t hash = UINT64_C(0xCBF29CE484222325);
    for (size_t i = 0; i < len; i++) {
        hash = (hash ^ bytes[i]) * UINT64_C(0x100000001B3);
    }
    return hash;
}

/* Words made alike by two programs with no common code, tests/second/word.rs and
 * reference/word.c. */
static const struct {
    uint64_t rate;
    void (*make)(uint8_t *block, size_t len);
    uint8_t first[8], last[8];
    uint64_t fnv1a;
} KNOWN_WORDS[] = {
    {0,
     zero_block,
     {0xCE, 0xD7, 0x2F, 0xF4, 0x36, 0x4D, 0xD0, 0xAA},
     {0x86, 0xA1, 0xBC, 0xAC, 0x3B, 0x7A, 0x1A, 0xCE},
     0xA7E4EB95C74487CE},
    {0,
     counting_block,
     {0xCB, 0xEB, 0x42, 0xE8, 0x29, 0x56, 0x22, 0x81},
     {0x0D, 0xE5, 0x19, 0x1F, 0x9F, 0xD6, 0x0E, 0x0A},
     0x3404333124AAB674},
    {0,
     ones_block,
     {0x78, 0x0C, 0x42, 0x42, 0xED, 0x20, 0x66, 0x71},
     {0xA2, 0x33, 0xF5, 0x88, 0xA9, 0x33, 0x3E, 0x5C},
     0xDEC4CE40294EDAA7},
    {1,
     zero_block,
     {0xED, 0xF1, 0x04, 0xB9, 0x3A, 0xCA, 0x23, 0xFF},
     {0x78, 0x72, 0xFA, 0x92, 0x51, 0x99, 0x1D, 0x72},
     0x7950942E194EBF84},
    {1,
     counting_block,
     {0xEB, 0x12, 0x59, 0x25, 0x0E, 0xC3, 0x82, 0x95},
     {0xA8, 0xC8, 0x91, 0xC2, 0x08, 0xC6, 0xEB, 0x62},
     0x10CBA2706321595C},
    {1,
     ones_block,
     {0x74, 0x68, 0x9D, 0x20, 0xA3, 0x53, 0xBA, 0x66},
     {0x1E, 0x14, 0x9C, 0xF4, 0x37, 0xFF, 0x7B, 0x14},
     0x621DE922D2DB5592},
    {2,
     zero_block,
     {0xB8, 0x03, 0xC7, 0xFF, 0xB8, 0x62, 0x81, 0xF5},
     {0xF5, 0x86, 0x55, 0x9E, 0xF3, 0xE4, 0x06, 0xE4},
     0x48E091378B924D27},
    {2,
     counting_block,
     {0xC6, 0x14, 0xD9, 0x81, 0x7A, 0xA9, 0x95, 0x00},
     {0xA0, 0x97, 0xF0, 0xE0, 0xBF, 0x49, 0xCF, 0x5A},
     0xC30957A77825E7E6},
    {2,
     ones_block,
     {0x0E, 0xD8, 0xAA, 0x49, 0x63, 0x0F, 0x37, 0x2E},
     {0xD1, 0x14, 0x1C, 0xBA, 0x61, 0xAD, 0x22, 0x76},
     0x93C7A17DC576C8FA},
};

static void test_known_words(void) {
    uint8_t block[MAHYREI_BLOCK_BYTES_MAX], word[MAHYREI_WORD_BYTES];
    for (size_t i = 0; i < sizeof KNOWN_WORDS / sizeof KNOWN_WORDS[0]; i++) {
        const uint64_t rate = KNOWN_WORDS[i].rate;
        KNOWN_WORDS[i].make(block, mahyrei_word_block_bytes(rate));
        write_word(rate, block, word);
        CHECK_FOR(rate, memcmp(word, KNOWN_WORDS[i].first, 8) == 0);
        CHECK_FOR(rate, memcmp(word + MAHYREI_WORD_BYTES - 8, KNOWN_WORDS[i].last, 8) == 0);
        CHECK_FOR(rate, fnv1a(word, MAHYREI_WORD_BYTES) == KNOWN_WORDS[i].fnv1a);
        CHECK_FOR(rate, read_word(rate, word) == MAHYREI_ACCEPTED);
        CHECK_FOR(rate, block_is(block));
    }
}

/* The word of the counting block with all bits from first to last flipped, and the place at which
 * 13 is answered, by rate; made like the known words. */
static const struct {
    size_t first, last;
    uint64_t place[RATES];
} KNOWN_REFUSALS[] = {
    {0, 0, {0, 0, 0}},
    {1, 1, {221, 220, 222}},
    {5000, 5017, {5637, 5638, 5637}},
    {7559, 7559, {7560, 7560, 7560}},
    {7560, 7560, {7560, 7560, 7560}},
    {15118, 15118, {198, 198, 198}},
    {15119, 15119, {198, 198, 198}},
};

static void test_known_refusals(uint64_t rate) {
    uint8_t block[MAHYREI_BLOCK_BYTES_MAX], word[MAHYREI_WORD_BYTES];
    counting_block(block, mahyrei_word_block_bytes(rate));
    for (size_t i = 0; i < sizeof KNOWN_REFUSALS / sizeof KNOWN_REFUSALS[0]; i++) {
        write_word(rate, block, word);
        for (size_t place = KNOWN_REFUSALS[i].first; place <= KNOWN_REFUSALS[i].last; place++) {
            flip(word, place);
        }
        CHECK_FOR(rate, read_word(rate, word) == KNOWN_REFUSALS[i].place[rate] * 256 + 13);
    }
    memset(word, 0, sizeof word); /* coded bits of zeros, and so an input of zeros: no check */
    CHECK_FOR(rate, read_word(rate, word) == MAHYREI_BAD_CHECK);
    memset(word, 0xFF, sizeof word);
    CHECK_FOR(rate, read_word(rate, word) == 13);
}

static void test_round_trips(uint64_t rate) {
    uint8_t block[MAHYREI_BLOCK_BYTES_MAX], word[MAHYREI_WORD_BYTES], again[MAHYREI_WORD_BYTES];
    for (int i = 0; i < 200; i++) {
        fill_random(block, mahyrei_word_block_bytes(rate));
        write_word(rate, block, word);
        CHECK_FOR(rate, read_word(rate, word) == MAHYREI_ACCEPTED);
        CHECK_FOR(rate, block_is(block));
        write_word(rate, block, again); /* over other bytes */
        CHECK_FOR(rate, memcmp(word, again, sizeof word) == 0);
    }
}

/* The sum of three words is the word of the sum of their blocks, whatever the spare bits of the
 * four: those of the fourth need not be the sums. */
static void test_sums(uint64_t rate) {
    const size_t len = mahyrei_word_block_bytes(rate);
    for (int i = 0; i < 30; i++) {
        uint8_t sum_block[MAHYREI_BLOCK_BYTES_MAX] = {0}, sum[MAHYREI_WORD_BYTES] = {0};
        uint8_t block[MAHYREI_BLOCK_BYTES_MAX], word[MAHYREI_WORD_BYTES];
        for (int term = 0; term < 3; term++) {
            fill_random(block, len);
            write_word(rate, block, word);
            for (size_t j = 0; j < len; j++) {
                sum_block[j] ^= block[j];
            }
            for (size_t j = 0; j < sizeof word; j++) {
                sum[j] ^= word[j];
            }
        }
        sum_block[len - 1] = (uint8_t)(sum_block[len - 1] ^ random_below(4));
        write_word(rate, sum_block, word);
        CHECK_FOR(rate, memcmp(word, sum, sizeof word) == 0);
        CHECK_FOR(rate, read_word(rate, sum) == MAHYREI_ACCEPTED);
        CHECK_FOR(rate, block_is(sum_block));
    }
}

/* 13, at a place where the re-encoding can differ, which no second output is; or 14. */
static bool refused_before_check(uint64_t rate, uint64_t answer) {
    const uint64_t place = mahyrei_answer_place(answer);
    const bool second_output = rate == MAHYREI_RATE_1_3   ? place % 3 == 1
                               : rate == MAHYREI_RATE_1_2 ? place % 2 == 1
                                                          : place % 3 != 0;
    return answer == MAHYREI_BAD_TERMINATION ||
           (mahyrei_answer_number(answer) == MAHYREI_BAD_CODE && place < MAHYREI_WORD_BITS &&
            !second_output);
}

static void test_flips(uint64_t rate) {
    uint8_t block[MAHYREI_BLOCK_BYTES_MAX], word[MAHYREI_WORD_BYTES];
    fill_random(block, mahyrei_word_block_bytes(rate));
    write_word(rate, block, word);
    for (size_t place = 0; place < MAHYREI_WORD_BITS; place++) {
        const bool near_an_end = place < 64 || place >= MAHYREI_WORD_BITS - 64;
        if (near_an_end || place % 5 == rate) {
            flip(word, place);
            CHECK_FOR(rate, refused_before_check(rate, read_word(rate, word)));
            flip(word, place);
        }
    }
    for (size_t span = 2; span <= BURST; span++) {
        for (int i = 0; i < 40; i++) {
            const size_t ends = MAHYREI_WORD_BITS - span;
            const size_t start = i == 0 ? 0 : i == 1 ? ends : random_below(ends + 1);
            uint8_t damaged[MAHYREI_WORD_BYTES];
            memcpy(damaged, word, sizeof word);
            flip(damaged, start);
            flip(damaged, start + span - 1);
            for (size_t place = start + 1; place < start + span - 1; place++) {
                if (random_below(2) == 1) {
                    flip(damaged, place);
                }
            }
            CHECK_FOR(rate, refused_before_check(rate, read_word(rate, damaged)));
        }
    }
    CHECK_FOR(rate, read_word(rate, word) == MAHYREI_ACCEPTED);
    CHECK_FOR(rate, block_is(block));
}

/* What reading answers when one coded bit is wrong: output 0, 1 or 2 of input bit i. */
static uint64_t one_wrong(uint64_t rate, size_t i, int output) {
    if (output == 2) {
        return (coded_place(rate, i) + 2) * 256 + MAHYREI_BAD_CODE;
    }
    /* A wrong second output makes a wrong input bit, and that shows at the next first output. */
    const size_t step = rate == MAHYREI_RATE_2_3 && i % 2 == 1 ? i + 1 : i;
    return step < input_bits(rate) ? coded_place(rate, step) * 256 + MAHYREI_BAD_CODE
                                   : MAHYREI_BAD_TERMINATION;
}

static void test_coded_flips(uint64_t rate) {
    uint8_t block[MAHYREI_BLOCK_BYTES_MAX], word[MAHYREI_WORD_BYTES];
    fill_random(block, mahyrei_word_block_bytes(rate));
    write_word(rate, block, word);
    for (size_t i = 0; i < input_bits(rate); i++) {
        if (i % 41 != 0 && i > 3 && i + 4 < input_bits(rate)) {
            continue;
        }
        size_t place = coded_place(rate, i);
        for (int output = 0; output < 3; output++) {
            const bool kept = output == 1 || (output == 2 && rate == MAHYREI_RATE_1_3) ||
                              (output == 0 && (rate != MAHYREI_RATE_2_3 || i % 2 == 0));
            if (kept) {
                flip_coded(word, place);
                CHECK_FOR(rate, read_word(rate, word) == one_wrong(rate, i, output));
                flip_coded(word, place);
                place++;
            }
        }
    }
}

/* Words of the code whose input no block has: 14 comes before 15, and 13 before both. */
static void test_wrong_inputs(uint64_t rate) {
    uint8_t block[MAHYREI_BLOCK_BYTES_MAX], word[MAHYREI_WORD_BYTES];
    const size_t n = input_bits(rate), check_start = n - 2 - CHECK_BITS;
    fill_random(block, mahyrei_word_block_bytes(rate));
    write_word(rate, block, word);

    flip_input(rate, word, n - 1);
    CHECK_FOR(rate, read_word(rate, word) == MAHYREI_BAD_TERMINATION);
    flip_input(rate, word, n - 2);
    CHECK_FOR(rate, read_word(rate, word) == MAHYREI_BAD_TERMINATION);
    flip_input(rate, word, n - 1);
    CHECK_FOR(rate, read_word(rate, word) == MAHYREI_BAD_TERMINATION);
    flip_input(rate, word, check_start);
    CHECK_FOR(rate, read_word(rate, word) == MAHYREI_BAD_TERMINATION);
    flip_coded(word, 6); /* a first output at each rate */
    CHECK_FOR(rate, read_word(rate, word) == 6 * 256 + MAHYREI_BAD_CODE);
    flip_coded(word, 6);
    flip_input(rate, word, n - 2);
    CHECK_FOR(rate, read_word(rate, word) == MAHYREI_BAD_CHECK);
    flip_input(rate, word, check_start);
    CHECK_FOR(rate, read_word(rate, word) == MAHYREI_ACCEPTED);
    CHECK_FOR(rate, block_is(block));

    for (size_t i = 0; i < n - 2; i++) {
        if (i % 101 == 0 || i + 1 == check_start || i >= check_start) {
            flip_input(rate, word, i);
            CHECK_FOR(rate, read_word(rate, word) == MAHYREI_BAD_CHECK);
            flip_input(rate, word, i);
        }
    }
}

/* Flips the first and the last bit of a window of block and check, and any between; it is cut where
 * the check ends. */
static void flip_window(uint64_t rate, uint8_t *word, size_t start, size_t width) {
    const size_t end = input_bits(rate) - 2,
                 last = start + width < end ? start + width - 1 : end - 1;
    for (size_t i = start; i <= last; i++) {
        if (i == start || i == last || random_below(2) == 1) {
            flip_input(rate, word, i);
        }
    }
}

/* Flips before step 3 within 32 consecutive bits, in the block, in its check or across, get 15. Six
 * flips over 33 bits, which are the check's polynomial, make the word of another block. */
static void test_check_windows(uint64_t rate) {
    static const size_t POLYNOMIAL[] = {0, 3, 14, 18, 29, 32}, WIDTHS[] = {1, 2, 32};
    const size_t k = mahyrei_word_block_bytes(rate) * 8 - 2;
    const size_t starts[] = {0,     1, k - 33, k - 32, k - 31, k - 16,         k - 2,
                             k - 1, k, k + 1,  k + 16, k + 31, random_below(k)};
    uint8_t block[MAHYREI_BLOCK_BYTES_MAX], word[MAHYREI_WORD_BYTES];
    fill_random(block, mahyrei_word_block_bytes(rate));
    for (size_t i = 0; i < sizeof starts / sizeof starts[0]; i++) {
        for (size_t j = 0; j < sizeof WIDTHS / sizeof WIDTHS[0]; j++) {
            write_word(rate, block, word);
            flip_window(rate, word, starts[i], WIDTHS[j]);
            CHECK_FOR(rate, read_word(rate, word) == MAHYREI_BAD_CHECK);
        }
    }
    for (size_t start = 0; start < k; start += k - 1) {
        write_word(rate, block, word);
        for (size_t i = 0; i < sizeof POLYNOMIAL / sizeof POLYNOMIAL[0]; i++) {
            flip_input(rate, word, start + POLYNOMIAL[i]);
        }
        CHECK_FOR(rate, read_word(rate, word) == MAHYREI_ACCEPTED);
        CHECK_FOR(rate, !block_is(block));
    }
}

static void test_other_rate(uint64_t rate) {
    uint8_t block[MAHYREI_BLOCK_BYTES_MAX], word[MAHYREI_WORD_BYTES];
    fill_random(block, mahyrei_word_block_bytes(rate));
    write_word(rate, block, word);
    for (uint64_t other = 0; other < RATES; other++) {
        const unsigned number = other == rate ? MAHYREI_ACCEPTED : MAHYREI_BAD_CODE;
        CHECK_FOR(other, mahyrei_answer_number(read_word(other, word)) == number);
    }
}

static void lend_null(struct lent *lent) {
    lend(lent, 0);
    lent->slice = NULL;
}

/* Question 2 comes first, whatever else is wrong. */
static void test_refused_rates(void) {
    static const uint64_t WRONG[] = {
        3, 4, 255, 256, 257, 258, UINT64_C(1) << 32, (UINT64_C(1) << 32) + 2, UINT64_MAX};
    for (size_t i = 0; i < sizeof WRONG / sizeof WRONG[0]; i++) {
        for (int write = 0; write < 2; write++) {
            for (uint64_t like = 0; like < RATES; like++) {
                lend(&lent_block, mahyrei_word_block_bytes(like));
                lend(&lent_word, MAHYREI_WORD_BYTES);
                CHECK_FOR(WRONG[i], call(write, WRONG[i]) == MAHYREI_BAD_RATE);
            }
            lend_null(&lent_block);
            lend_null(&lent_word);
            CHECK_FOR(WRONG[i], call(write, WRONG[i]) == MAHYREI_BAD_RATE);
        }
    }
}

/* Question 8 comes before those on the bits: the word is random. */
static void test_refused_lengths(uint64_t rate) {
    const size_t block_len = mahyrei_word_block_bytes(rate), word_len = MAHYREI_WORD_BYTES;
    const size_t lengths[] = {0,
                              1,
                              block_len - 1,
                              block_len,
                              block_len + 1,
                              MAHYREI_BLOCK_BYTES_1_3,
                              MAHYREI_BLOCK_BYTES_1_2,
                              MAHYREI_BLOCK_BYTES_2_3,
                              word_len - 1,
                              word_len,
                              word_len + 1,
                              PAGE};
    const size_t count = sizeof lengths / sizeof lengths[0];
    for (int write = 0; write < 2; write++) {
        for (size_t i = 0; i < count * count; i++) {
            const size_t block = lengths[i / count], word = lengths[i % count];
            if (block == block_len && word == word_len) {
                continue;
            }
            lend(&lent_block, block);
            lend(&lent_word, word);
            CHECK_FOR(rate, call(write, rate) == MAHYREI_BAD_LENGTH);
        }
        lend_null(&lent_block);
        lend(&lent_word, word_len);
        CHECK_FOR(rate, call(write, rate) == MAHYREI_BAD_LENGTH);
        lend(&lent_block, block_len);
        lend_null(&lent_word);
        CHECK_FOR(rate, call(write, rate) == MAHYREI_BAD_LENGTH);
        lend_null(&lent_block);
        CHECK_FOR(rate, call(write, rate) == MAHYREI_BAD_LENGTH);
    }
}

/* All four contents of the spare bits give one word, and reading it gives zeros there. */
static void test_spare_bits(uint64_t rate) {
    uint8_t block[MAHYREI_BLOCK_BYTES_MAX], words[4][MAHYREI_WORD_BYTES];
    const size_t last = mahyrei_word_block_bytes(rate) - 1;
    for (int i = 0; i < 50; i++) {
        fill_random(block, last + 1);
        for (size_t spare = 0; spare < 4; spare++) {
            block[last] = (uint8_t)((block[last] & 0xFC) | spare);
            write_word(rate, block, words[spare]);
            CHECK_FOR(rate, memcmp(words[spare], words[0], MAHYREI_WORD_BYTES) == 0);
            CHECK_FOR(rate, read_word(rate, words[spare]) == MAHYREI_ACCEPTED);
            CHECK_FOR(rate, block_is(block));
        }
    }
}

static void test_every_number_met(void) {
    static const unsigned NUMBERS[] = {0, 2, 8, 13, 14, 15};
    unsigned long total = 0, expected = 0;
    for (size_t i = 0; i < 256; i++) {
        total += met[i];
    }
    for (size_t i = 0; i < sizeof NUMBERS / sizeof NUMBERS[0]; i++) {
        CHECK_FOR(NUMBERS[i], met[NUMBERS[i]] > 0);
        expected += met[NUMBERS[i]];
    }
    CHECK_FOR(0, total == expected);
    printf("word_calls: %lu calls, %lu checks, %lu failed\n", total, checks, failures);
}

int main(void) {
    map_pages(&lent_block);
    map_pages(&lent_word);
    test_known_words();
    test_refused_rates();
    for (uint64_t rate = 0; rate < RATES; rate++) {
        test_known_refusals(rate);
        test_round_trips(rate);
        test_sums(rate);
        test_flips(rate);
        test_coded_flips(rate);
        test_wrong_inputs(rate);
        test_check_windows(rate);
        test_other_rate(rate);
        test_refused_lengths(rate);
        test_spare_bits(rate);
    }
    test_every_number_met();
    return failures == 0 ? EXIT_SUCCESS : EXIT_FAILURE;
}
