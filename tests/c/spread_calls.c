/*
 * Test of mahyrei_bit_spread from C: known places, the words of blocks that differ in one bit, and
 * refusals of every number with the lent bytes unchanged.
 *
 * The library is not built with sanitizers. So the slice is lent from pages of its own: it ends
 * where a page begins that may not be touched, and the bytes before it are compared after the call.
 */
#define _DEFAULT_SOURCE /* MAP_ANONYMOUS */
#include <inttypes.h>
#include <stdbool.h>
#include <stdio.h>
#include <stdlib.h>
#include <string.h>
#include <sys/mman.h>

#include "check.h"
#include "mahyrei.h"
#include "runs.h"

enum { RATES = 3, PAGE = 4096, WORD = MAHYREI_WORD_BYTES };

static const size_t LIMITS[RATES] = {110, 73, 56};

static unsigned long met[256]; /* answers by number */

/* ---- the call, on a slice at the end of a page */

static uint8_t *page, *places;

static void map_page(void) {
    page = mmap(NULL, 2 * PAGE, PROT_READ | PROT_WRITE, MAP_PRIVATE | MAP_ANONYMOUS, -1, 0);
    if (page == MAP_FAILED || mprotect(page + PAGE, PAGE, PROT_NONE) != 0) {
        perror("mmap");
        exit(1);
    }
}

static uint64_t call(uint64_t rate, uint64_t bit, size_t len) {
    uint8_t before[PAGE];
    fill_random(page, PAGE);
    memcpy(before, page, PAGE);
    places = page + PAGE - len;
    const uint64_t answer = mahyrei_bit_spread(rate, bit, places, len);
    met[mahyrei_answer_number(answer)]++;
    CHECK_FOR(rate, memcmp(page, before, answer == MAHYREI_ACCEPTED ? PAGE - len : PAGE) == 0);
    return answer;
}

static size_t count(void) {
    size_t ones = 0;
    for (size_t j = 0; j < MAHYREI_WORD_BITS; j++) {
        ones += get_bit(places, j);
    }
    return ones;
}

/* ---- the tests */

static uint64_t fnv1a(const uint8_t *bytes, size_t len) {
    uint64_t hash = UINT64_C(0xCBF29CE484222325);
    for (size_t i = 0; i < len; i++) {
        hash = (hash ^ bytes[i]) * UINT64_C(0x100000001B3);
    }
    return hash;
}

/* The first and the last bits of a block, one in the middle, and those that change the most and the
 * fewest coded bits of all. The hashes were made by a program with no part in this one. */
static const struct {
    uint64_t rate, bit;
    size_t count;
    uint64_t fnv1a; /* 0 where only the count is known */
} KNOWN[] = {
    {0, 0, 52, 0x6FC12BB254B556C0},
    {0, 2503, 58, 0x6C4E101ACD6CC4ED},
    {0, 5003, 48, 0x243BDFF0BBE9E49E},
    {0, 5004, 48, 0x92F99CA6F67A276D},
    {0, 5005, 48, 0xF1871864E1925E17},
    {0, 4697, 84, 0},
    {0, 4992, 34, 0},
    {1, 0, 36, 0xB4605E21B6F11815},
    {1, 3763, 42, 0x0ACC069F09DF9834},
    {1, 7524, 30, 0xD8CB1B630B99DC85},
    {1, 7525, 30, 0x81EDA864E2EFD8FE},
    {1, 7217, 54, 0},
    {1, 14, 26, 0},
    {2, 0, 30, 0xDA1F56486FF57599},
    {2, 1, 30, 0xDC9911FF88001785},
    {2, 10044, 26, 0x84A915C2D27B890C},
    {2, 10045, 22, 0x0FE070F002B46ABD},
    {2, 1176, 42, 0},
    {2, 189, 14, 0},
};

static void test_known(void) {
    for (size_t i = 0; i < sizeof KNOWN / sizeof KNOWN[0]; i++) {
        const uint64_t rate = KNOWN[i].rate;
        CHECK_FOR(rate, call(rate, KNOWN[i].bit, WORD) == MAHYREI_ACCEPTED);
        CHECK_FOR(rate, count() == KNOWN[i].count);
        CHECK_FOR(rate, KNOWN[i].fnv1a == 0 || fnv1a(places, WORD) == KNOWN[i].fnv1a);
    }
    CHECK_FOR(0, call(0, 0, WORD) == MAHYREI_ACCEPTED);
    CHECK_FOR(0, places[0] == 0xEF && places[1] == 0x80 && places[2] == 0); /* 0 1 2 4 5 6 7 8 */
    CHECK_FOR(2, call(2, 1, WORD) == MAHYREI_ACCEPTED);
    CHECK_FOR(2, places[0] == 0x2C && places[1] == 0); /* 2 4 5 */
}

/* The words of a random block and of the same with one bit changed: their sum, with the accumulator
 * and the interleaver undone, has the places that the call gives. The randomizer cancels out. */
static void test_words(uint64_t rate) {
    const size_t len = mahyrei_word_block_bytes(rate), k = 8 * len - 2;
    uint8_t block[MAHYREI_BLOCK_BYTES_MAX], word[WORD], other[WORD], expected[WORD];
    for (size_t i = 0; i < 60; i++) {
        const size_t bit = i < 3 ? i : i < 6 ? k - 1 - (i - 3) : random_below(k);
        fill_random(block, len);
        CHECK_FOR(rate, mahyrei_word_write(rate, block, len, word, WORD) == MAHYREI_ACCEPTED);
        flip(block, bit);
        CHECK_FOR(rate, mahyrei_word_write(rate, block, len, other, WORD) == MAHYREI_ACCEPTED);
        memset(expected, 0, WORD);
        size_t before = 0;
        for (uint64_t j = 0; j < MAHYREI_WORD_BITS; j++) {
            const size_t now = get_bit(word, (size_t)j) ^ get_bit(other, (size_t)j);
            if (now != before) {
                flip(expected, (size_t)((11 * j + 210 * j * j) % MAHYREI_WORD_BITS));
            }
            before = now;
        }
        CHECK_FOR(rate, call(rate, bit, WORD) == MAHYREI_ACCEPTED);
        CHECK_FOR(rate, memcmp(places, expected, WORD) == 0);
        CHECK_FOR(rate, count() <= LIMITS[rate]);
    }
}

/* In their order: 2, then 8, then 27. */
static void test_refusals(void) {
    static const uint64_t NO_RATE[] = {3, 4, 256, UINT64_C(1) << 32, UINT64_MAX};
    static const size_t NO_LENGTH[] = {0, 1, WORD - 1, WORD + 1, PAGE};
    for (size_t i = 0; i < sizeof NO_RATE / sizeof NO_RATE[0]; i++) {
        CHECK_FOR(NO_RATE[i], call(NO_RATE[i], 0, WORD) == MAHYREI_BAD_RATE);
        CHECK_FOR(NO_RATE[i], call(NO_RATE[i], UINT64_MAX, 0) == MAHYREI_BAD_RATE);
        CHECK_FOR(NO_RATE[i], mahyrei_bit_spread(NO_RATE[i], 0, NULL, 0) == MAHYREI_BAD_RATE);
    }
    for (uint64_t rate = 0; rate < RATES; rate++) {
        const uint64_t k = 8 * mahyrei_word_block_bytes(rate) - 2;
        const uint64_t no_bit[] = {
            k, k + 1, k + 2, 15120, UINT64_C(1) << 32, (UINT64_C(1) << 32) + 5, UINT64_MAX};
        for (size_t i = 0; i < sizeof NO_LENGTH / sizeof NO_LENGTH[0]; i++) {
            CHECK_FOR(rate, call(rate, 0, NO_LENGTH[i]) == MAHYREI_BAD_LENGTH);
            CHECK_FOR(rate, call(rate, k, NO_LENGTH[i]) == MAHYREI_BAD_LENGTH);
        }
        CHECK_FOR(rate, mahyrei_bit_spread(rate, 0, NULL, 0) == MAHYREI_BAD_LENGTH);
        for (size_t i = 0; i < sizeof no_bit / sizeof no_bit[0]; i++) {
            CHECK_FOR(rate, call(rate, no_bit[i], WORD) == MAHYREI_BAD_BIT);
        }
        CHECK_FOR(rate, call(rate, k - 1, WORD) == MAHYREI_ACCEPTED);
    }
}

static void test_every_number_met(void) {
    static const unsigned NUMBERS[] = {0, 2, 8, 27};
    unsigned long total = 0, expected = 0;
    for (size_t i = 0; i < 256; i++) {
        total += met[i];
    }
    for (size_t i = 0; i < sizeof NUMBERS / sizeof NUMBERS[0]; i++) {
        CHECK_FOR(NUMBERS[i], met[NUMBERS[i]] > 0);
        expected += met[NUMBERS[i]];
    }
    CHECK_FOR(0, total == expected);
    printf("spread_calls: %lu calls, %lu checks, %lu failed\n", total, checks, failures);
}

int main(void) {
    map_page();
    test_known();
    for (uint64_t rate = 0; rate < RATES; rate++) {
        test_words(rate);
    }
    test_refusals();
    test_every_number_met();
    return failures == 0 ? EXIT_SUCCESS : EXIT_FAILURE;
}
