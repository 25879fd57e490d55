/*
 * Test of the two uplink calls from C: known slots, wrong slots, bits and parity at every place of
 * a codeblock, and refusals of every number with the lent bytes unchanged.
 *
 * The sanitizers watch this program but not the library, which is not built with them. So each
 * slice is lent from pages of its own: it ends where a page begins that may not be touched, the
 * bytes before it are compared after the call, and the slice that a call reads is write-protected.
 */
#define _DEFAULT_SOURCE /* MAP_ANONYMOUS */
#include <inttypes.h>
#include <stdbool.h>
#include <stdio.h>
#include <stdlib.h>
#include <string.h>
#include <sys/mman.h>

#include "check.h"
#include "mahyrei.h"

enum {
    FRAME = MAHYREI_UPLINK_FRAME_BYTES,
    CODEBLOCK = MAHYREI_UPLINK_CODEBLOCK_BYTES,
    MOST = MAHYREI_UPLINK_MAX,
    BITS = 2 * CODEBLOCK /* of a codeblock, and so its groups */
};

static unsigned long met[2][256]; /* answers by call and number */

/* ---- lent slices */

enum { PAGE = 4096, AREA = 3 * PAGE, MARGIN = 64 };

struct lent {
    uint8_t *area; /* the slice is at its end; the next page may not be touched */
    uint8_t *slice;
    size_t len;
    uint8_t before[AREA]; /* what margin and slice held when they were lent */
};

static struct lent lent_frames, lent_slots;

static void map_area(struct lent *lent) {
    lent->area =
        mmap(NULL, AREA + PAGE, PROT_READ | PROT_WRITE, MAP_PRIVATE | MAP_ANONYMOUS, -1, 0);
    if (lent->area == MAP_FAILED || mprotect(lent->area + AREA, PAGE, PROT_NONE) != 0) {
        perror("mmap");
        exit(1);
    }
}

static void protect(const struct lent *lent, int protection) {
    if (mprotect(lent->area, AREA, protection) != 0) {
        perror("mprotect");
        exit(1);
    }
}

/* A slice of random bytes, with random bytes before it. */
static void lend(struct lent *lent, size_t len) {
    if (len + MARGIN > AREA) {
        fprintf(stderr, "uplink_calls.c: %zu bytes are too many to lend\n", len);
        exit(1);
    }
    lent->slice = lent->area + AREA - len;
    lent->len = len;
    fill_random(lent->slice - MARGIN, len + MARGIN);
}

static void lend_copy(struct lent *lent, const uint8_t *bytes, size_t len) {
    lend(lent, len);
    memcpy(lent->slice, bytes, len);
}

static void lend_null(struct lent *lent) {
    lend(lent, 0);
    lent->slice = NULL;
}

static uint8_t *margin_of(const struct lent *lent) {
    return lent->area + AREA - lent->len - MARGIN;
}

/* One call on the lent slices, and what holds of their bytes after every call. */
static uint64_t call(bool write) {
    struct lent *const from = write ? &lent_frames : &lent_slots;
    struct lent *const to = write ? &lent_slots : &lent_frames;
    memcpy(from->before, margin_of(from), from->len + MARGIN);
    memcpy(to->before, margin_of(to), to->len + MARGIN);
    protect(from, PROT_READ);
    const uint64_t answer = write ? mahyrei_uplink_write(from->slice, from->len, to->slice, to->len)
                                  : mahyrei_uplink_read(from->slice, from->len, to->slice, to->len);
    protect(from, PROT_READ | PROT_WRITE);
    met[write][mahyrei_answer_number(answer)]++;

    CHECK_FOR(from->len, memcmp(margin_of(from), from->before, from->len + MARGIN) == 0);
    const bool accepted = answer == MAHYREI_ACCEPTED;
    CHECK_FOR(to->len,
              memcmp(margin_of(to), to->before, accepted ? MARGIN : to->len + MARGIN) == 0);
    return answer;
}

/* ---- frames and slots */

static uint8_t frames[MOST * FRAME], slots[MOST * CODEBLOCK];

/* The slots that the writer makes of the first n frames. */
static void write_frames(size_t n) {
    lend_copy(&lent_frames, frames, n * FRAME);
    lend(&lent_slots, n * CODEBLOCK);
    CHECK_FOR(n, call(true) == MAHYREI_ACCEPTED);
    memcpy(slots, lent_slots.slice, n * CODEBLOCK);
}

static void write_random(size_t n) {
    fill_random(frames, n * FRAME);
    write_frames(n);
}

static uint64_t read_slots(size_t n) {
    lend_copy(&lent_slots, slots, n * CODEBLOCK);
    lend(&lent_frames, n * FRAME);
    return call(false);
}

/* Four slots at a group. */
static void put_group(size_t group, unsigned four) {
    const unsigned shift = group % 2 == 0 ? 4 : 0;
    slots[group / 2] = (uint8_t)((slots[group / 2] & ~(15U << shift)) | four << shift);
}

/* The pulse in the other slot of the two. */
static void turn_bit(size_t group) {
    slots[group / 2] ^= group % 2 == 0 ? 0xC0 : 0x0C;
}

static void put_number(uint8_t *bytes, uint64_t number) {
    for (size_t i = 0; i < 8; i++) {
        bytes[i] = (uint8_t)(number >> (56 - 8 * i));
    }
}

static uint64_t get_number(const uint8_t *bytes) {
    uint64_t number = 0;
    for (size_t i = 0; i < 8; i++) {
        number = number << 8 | bytes[i];
    }
    return number;
}

/* The 64 bits whose slots begin at this byte, as they are sent. */
static uint64_t bits_in(const uint8_t *at) {
    uint64_t bits = 0;
    for (size_t i = 0; i < CODEBLOCK / 2; i++) {
        bits = bits << 2 | (uint64_t)(at[i] >> 5 & 2) | (uint64_t)(at[i] >> 2 & 1);
    }
    return bits;
}

/* Step 7's sequence, bits 0 to 127. */
static const uint64_t SEQUENCE[2] = {UINT64_C(0xFF480EC09A0D70BC), UINT64_C(0x8E2C93ADA7B746CE)};

struct known {
    uint64_t frame, parity, first, last; /* the first and the last eight slot bytes */
};

static const struct known KNOWN[] = {
    {0, 0, UINT64_C(0x4444444484884888), UINT64_C(0x8488844844884448)},
    {1, UINT64_C(0x9D5445F48CBCD423), UINT64_C(0x4444444484884888), UINT64_C(0x4884884844484484)},
    {UINT64_C(0x8000000000000000), UINT64_C(0x0E69166BEF4C0BC2), UINT64_C(0x8444444484884888),
     UINT64_C(0x8488448488884488)},
    {UINT64_MAX, UINT64_MAX, UINT64_C(0x8888888848448444), UINT64_C(0x4844488488448884)},
    {UINT64_C(0x0123456789ABCDEF), UINT64_C(0x57B93EE3C084BA54), UINT64_C(0x4444444884484844),
     UINT64_C(0x4444448848844848)},
};

enum { KNOWN_COUNT = sizeof KNOWN / sizeof KNOWN[0] };

/* Each alone, and all of them in one call: no codeblock depends on those before it. */
static void test_known(void) {
    uint8_t all[KNOWN_COUNT * CODEBLOCK];
    for (size_t i = 0; i < KNOWN_COUNT; i++) {
        put_number(frames, KNOWN[i].frame);
        write_frames(1);
        CHECK_FOR(i, get_number(slots) == KNOWN[i].first);
        CHECK_FOR(i, get_number(slots + CODEBLOCK - 8) == KNOWN[i].last);
        CHECK_FOR(i, (bits_in(slots) ^ SEQUENCE[0]) == KNOWN[i].frame);
        CHECK_FOR(i, (bits_in(slots + CODEBLOCK / 2) ^ SEQUENCE[1]) == KNOWN[i].parity);
        memcpy(all + i * CODEBLOCK, slots, CODEBLOCK);
    }
    for (size_t i = 0; i < KNOWN_COUNT; i++) {
        put_number(frames + i * FRAME, KNOWN[i].frame);
    }
    write_frames(KNOWN_COUNT);
    CHECK_FOR(KNOWN_COUNT, memcmp(slots, all, sizeof all) == 0);
    memset(frames, 0, 2 * FRAME);
    write_frames(2);
    CHECK_FOR(2, memcmp(slots, all, CODEBLOCK) == 0);
    CHECK_FOR(2, memcmp(slots + CODEBLOCK, all, CODEBLOCK) == 0);
}

/* n frames there and back, and each as if it were alone. */
static void test_both_ways(size_t n) {
    uint8_t all[MOST * CODEBLOCK], each[MOST * FRAME];
    write_random(n);
    CHECK_FOR(n, read_slots(n) == MAHYREI_ACCEPTED);
    CHECK_FOR(n, memcmp(lent_frames.slice, frames, n * FRAME) == 0);
    memcpy(all, slots, n * CODEBLOCK);
    memcpy(each, frames, n * FRAME);
    for (size_t i = 0; i < n; i++) {
        memcpy(frames, each + i * FRAME, FRAME);
        write_frames(1);
        CHECK_FOR(i, memcmp(slots, all + i * CODEBLOCK, CODEBLOCK) == 0);
    }
}

/* Each of 16 values at each group of a codeblock. */
static void test_groups(void) {
    uint8_t sound[CODEBLOCK];
    write_random(1);
    memcpy(sound, slots, sizeof sound);
    for (size_t group = 0; group < BITS; group++) {
        for (unsigned four = 0; four < 16; four++) {
            memcpy(slots, sound, sizeof sound);
            put_group(group, four);
            const bool bit = four == 8 || four == 4;
            const uint64_t answer = !bit ? group * 256 + MAHYREI_BAD_GROUP
                                    : memcmp(slots, sound, sizeof sound) == 0 ? MAHYREI_ACCEPTED
                                                                              : MAHYREI_BAD_PARITY;
            CHECK_FOR(group, read_slots(1) == answer);
        }
    }
}

/* Every one and every two wrong bits of a codeblock. */
static void test_bits(void) {
    write_random(1);
    for (size_t a = 0; a < BITS; a++) {
        turn_bit(a);
        CHECK_FOR(a, read_slots(1) == MAHYREI_BAD_PARITY);
        for (size_t b = a + 1; b < BITS; b++) {
            turn_bit(b);
            CHECK_FOR(b, read_slots(1) == MAHYREI_BAD_PARITY);
            turn_bit(b);
        }
        turn_bit(a);
    }
    CHECK_FOR(0, read_slots(1) == MAHYREI_ACCEPTED);
}

/* Of several the first counts, and 28 in the last codeblock comes before 29 in the first. */
static void test_order(void) {
    write_random(MOST);
    put_group(MOST * BITS - 1, 0);
    CHECK_FOR(MOST, read_slots(MOST) == UINT64_C(8191) * 256 + MAHYREI_BAD_GROUP);
    turn_bit(0);
    CHECK_FOR(MOST, read_slots(MOST) == UINT64_C(8191) * 256 + MAHYREI_BAD_GROUP);
    put_group(8064, 1);
    CHECK_FOR(MOST, read_slots(MOST) == UINT64_C(8064) * 256 + MAHYREI_BAD_GROUP);
    for (size_t n = 1; n <= MOST; n++) {
        write_random(MOST);
        turn_bit(MOST * BITS - 1);
        turn_bit((n - 1) * BITS + n);
        CHECK_FOR(n, read_slots(MOST) == (n - 1) * 256 + MAHYREI_BAD_PARITY);
    }
    write_random(2); /* the parity of another frame */
    memcpy(slots + CODEBLOCK / 2, slots + CODEBLOCK + CODEBLOCK / 2, CODEBLOCK / 2);
    CHECK_FOR(2, read_slots(2) == MAHYREI_BAD_PARITY);
    write_random(2); /* two codeblocks that have changed places are codewords still */
    memcpy(slots, slots + CODEBLOCK, CODEBLOCK);
    CHECK_FOR(2, read_slots(2) == MAHYREI_ACCEPTED);
    CHECK_FOR(2, memcmp(lent_frames.slice, frames + FRAME, FRAME) == 0);
}

static void test_plain_contents(void) {
    memset(slots, 0, CODEBLOCK);
    CHECK_FOR(0, read_slots(1) == MAHYREI_BAD_GROUP);
    memset(slots, 0xFF, CODEBLOCK);
    CHECK_FOR(0, read_slots(1) == MAHYREI_BAD_GROUP);
    memset(slots, 0x88, sizeof slots);
    CHECK_FOR(0, read_slots(MOST) == MAHYREI_BAD_PARITY);
    memset(slots, 0x44, sizeof slots);
    CHECK_FOR(0, read_slots(MOST) == MAHYREI_BAD_PARITY);
    write_random(1);
    slots[0] = 0xA8; /* a pulse in a guard slot too */
    CHECK_FOR(0, read_slots(1) == MAHYREI_BAD_GROUP);
}

/* Both calls with slices of these lengths, which hold anything. */
static void test_refused(size_t frames_len, size_t slots_len) {
    for (int write = 0; write < 2; write++) {
        lend(&lent_frames, frames_len);
        lend(&lent_slots, slots_len);
        CHECK_FOR(frames_len, call(write) == MAHYREI_BAD_LENGTH);
    }
}

/* Question 8: none, more than 64, a broken frame or codeblock, and slices of different counts. */
static void test_lengths(void) {
    test_refused(0, 0);
    test_refused(FRAME, 0);
    test_refused(0, CODEBLOCK);
    test_refused(1, 1);
    test_refused(7, 64);
    test_refused(9, 64);
    test_refused(8, 63);
    test_refused(8, 65);
    test_refused(CODEBLOCK, FRAME);
    test_refused((MOST + 1) * FRAME, (MOST + 1) * CODEBLOCK);
    test_refused(2 * MOST * FRAME, 2 * MOST * CODEBLOCK);
    for (size_t n = 1; n <= MOST; n++) {
        test_refused(n * FRAME - 1, n * CODEBLOCK);
        test_refused(n * FRAME + 1, n * CODEBLOCK);
        test_refused(n * FRAME, n * CODEBLOCK - 1);
        test_refused(n * FRAME, n * CODEBLOCK + 1);
        test_refused(n * FRAME - 1, n * CODEBLOCK - 1);
        test_refused(n * FRAME, (n - 1) * CODEBLOCK);
        test_refused(n * FRAME, (n + 1) * CODEBLOCK);
        test_refused((n - 1) * FRAME, n * CODEBLOCK);
        test_refused((n + 1) * FRAME, n * CODEBLOCK);
    }
    for (int write = 0; write < 2; write++) {
        lend_null(&lent_frames);
        lend_null(&lent_slots);
        CHECK_FOR(0, call(write) == MAHYREI_BAD_LENGTH);
        lend(&lent_slots, CODEBLOCK);
        CHECK_FOR(0, call(write) == MAHYREI_BAD_LENGTH);
        lend(&lent_frames, FRAME);
        lend_null(&lent_slots);
        CHECK_FOR(0, call(write) == MAHYREI_BAD_LENGTH);
    }
}

static void test_every_number_met(void) {
    unsigned long total = 0, expected = 0;
    for (unsigned number = 0; number < 256; number++) {
        const bool written = number == MAHYREI_ACCEPTED || number == MAHYREI_BAD_LENGTH;
        const bool read = written || number == MAHYREI_BAD_GROUP || number == MAHYREI_BAD_PARITY;
        total += met[0][number] + met[1][number];
        expected += (written ? met[1][number] : 0) + (read ? met[0][number] : 0);
        CHECK_FOR(number, !written || met[1][number] > 0);
        CHECK_FOR(number, !read || met[0][number] > 0);
    }
    CHECK_FOR(0, total == expected);
    printf("uplink_calls: %lu calls, %lu checks, %lu failed\n", total, checks, failures);
}

int main(void) {
    map_area(&lent_frames);
    map_area(&lent_slots);
    test_known();
    for (size_t n = 1; n <= MOST; n++) {
        test_both_ways(n);
    }
    test_groups();
    test_bits();
    test_order();
    test_plain_contents();
    test_lengths();
    test_every_number_met();
    return failures == 0 ? EXIT_SUCCESS : EXIT_FAILURE;
}
