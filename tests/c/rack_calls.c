/*
 * Test of the four rack calls from C: a trace with its bytes, every place with every value of its
 * first byte, and refusals of every number, in their order, with the lent bytes unchanged.
 *
 * The sanitizers watch this program but not the library, which is not built with them. So area and
 * header are lent from pages of their own: each ends where a page begins that may not be touched,
 * the bytes before it are compared after the call, and what a call reads is write-protected.
 */
#define _DEFAULT_SOURCE /* MAP_ANONYMOUS */
#include <inttypes.h>
#include <stdbool.h>
#include <stdio.h>
#include <stdlib.h>
#include <string.h>
#include <sys/mman.h>

#include "check.h"
#include "mahyrei.h"
#include "runs.h"

enum {
    MISSIONS = 4,
    PLACES = 4,
    RACK = MAHYREI_RACK_BYTES,
    HEADER = MAHYREI_HEADER_BYTES,
    ENTRY = 1 + HEADER,
    PAGE = 4096
};

enum kind { LOAD, READ, DROP, LEND, KINDS };

static unsigned long met[KINDS][256]; /* answers by call and number */

/* ---- lent slices */

struct lent {
    uint8_t *page; /* the slice is at its end; the next page may not be touched */
    uint8_t *slice;
    size_t len;
    uint8_t before[PAGE];
};

static struct lent area, header;

static void map_page(struct lent *lent) {
    lent->page = mmap(NULL, 2 * PAGE, PROT_READ | PROT_WRITE, MAP_PRIVATE | MAP_ANONYMOUS, -1, 0);
    if (lent->page == MAP_FAILED || mprotect(lent->page + PAGE, PAGE, PROT_NONE) != 0) {
        perror("mmap");
        exit(1);
    }
}

static void protect(const struct lent *lent, int protection) {
    if (mprotect(lent->page, PAGE, protection) != 0) {
        perror("mprotect");
        exit(1);
    }
}

/* So many bytes; the page holds random ones, the slice these. */
static void lend(struct lent *lent, const uint8_t *bytes, size_t len) {
    fill_random(lent->page, PAGE);
    lent->len = len;
    lent->slice = lent->page + PAGE - len;
    if (bytes != NULL) {
        memcpy(lent->slice, bytes, len);
    }
}

static uint8_t *entry_of(uint64_t owner, uint64_t place) {
    return area.slice + (4 * owner + place) * ENTRY;
}

/* What an accepted call makes of the bytes that were lent, in `before` of each. */
static void expect(enum kind kind, uint64_t owner, uint64_t place, uint64_t to) {
    const size_t at = (4 * owner + place) * ENTRY;
    uint8_t *const entry = area.before + PAGE - area.len + at;
    if (kind == LOAD) {
        entry[0] = entry[0] == 0 ? 1 : entry[0];
        memcpy(entry + 1, header.slice, HEADER);
    } else if (kind == READ) {
        memcpy(header.before + PAGE - header.len, entry + 1, HEADER);
    } else if (kind == DROP) {
        memset(entry, 0, ENTRY);
    } else {
        entry[0] = (uint8_t)(2 + to);
    }
}

/* One call on the lent slices, and what holds of all bytes after every call. */
static unsigned put(enum kind kind, uint64_t caller, uint64_t owner, uint64_t place, uint64_t to) {
    uint64_t answer = 0;
    memcpy(area.before, area.page, PAGE);
    memcpy(header.before, header.page, PAGE);
    protect(&area, kind == READ ? PROT_READ : PROT_READ | PROT_WRITE);
    protect(&header, kind == READ ? PROT_READ | PROT_WRITE : PROT_READ);
    switch (kind) {
    case LOAD:
        answer =
            mahyrei_rack_load(area.slice, area.len, caller, owner, place, header.slice, header.len);
        break;
    case READ:
        answer =
            mahyrei_rack_read(area.slice, area.len, caller, owner, place, header.slice, header.len);
        break;
    case DROP:
        answer = mahyrei_rack_drop(area.slice, area.len, caller, owner, place);
        break;
    default:
        answer = mahyrei_rack_lend(area.slice, area.len, caller, owner, place, to);
    }
    protect(&area, PROT_READ | PROT_WRITE);
    protect(&header, PROT_READ | PROT_WRITE);
    met[kind][mahyrei_answer_number(answer)]++;
    CHECK_FOR(kind, mahyrei_answer_place(answer) == 0);
    if (answer == MAHYREI_ACCEPTED) {
        expect(kind, owner, place, to);
    }
    CHECK_FOR(kind, memcmp(area.page, area.before, PAGE) == 0);
    CHECK_FOR(kind, memcmp(header.page, header.before, PAGE) == 0);
    return mahyrei_answer_number(answer);
}

/* ---- a trace */

static const uint8_t FIRST[] = {0x59, 0x50, 0xF0, 0x1B, 0xE8, 0x02, 0x04, 0x00, 0x00, 0x00};
static const uint8_t SECOND[] = {0x50, 0x04, 0x02, 0x1B, 0xE1, 0x01, 0x04, 0x00, 0x00, 0x00};

static unsigned load(uint64_t caller, uint64_t owner, uint64_t place, const uint8_t *bytes,
                     size_t len) {
    lend(&header, bytes, len);
    return put(LOAD, caller, owner, place, 0);
}

/* Reads, and says whether this header came. */
static unsigned read_as(uint64_t caller, uint64_t owner, uint64_t place, const uint8_t *bytes) {
    lend(&header, NULL, HEADER);
    const unsigned number = put(READ, caller, owner, place, 0);
    CHECK_FOR(number, number != MAHYREI_ACCEPTED || memcmp(header.slice, bytes, HEADER) == 0);
    return number;
}

static void test_trace(void) {
    static const uint8_t EMPTY[RACK];
    uint8_t last[RACK] = {0};
    lend(&area, EMPTY, RACK);
    CHECK_FOR(0, read_as(0, 0, 0, FIRST) == 25);
    CHECK_FOR(1, load(0, 0, 1, FIRST, HEADER) == 0);
    CHECK_FOR(2, read_as(0, 0, 1, FIRST) == 0);
    CHECK_FOR(3, read_as(2, 0, 1, FIRST) == 25);
    CHECK_FOR(4, put(LEND, 0, 0, 1, 0) == 23);
    CHECK_FOR(5, put(LEND, 0, 0, 2, 2) == 25);
    CHECK_FOR(6, put(LEND, 1, 0, 1, 1) == 23);
    CHECK_FOR(7, put(LEND, 1, 0, 1, 2) == 25);
    CHECK_FOR(8, put(LEND, 0, 0, 1, 2) == 0);
    CHECK_FOR(9, read_as(2, 0, 1, FIRST) == 0);
    CHECK_FOR(10, load(0, 0, 1, SECOND, HEADER) == 0);
    CHECK_FOR(11, read_as(2, 0, 1, SECOND) == 0);
    CHECK_FOR(12, put(LEND, 0, 0, 1, 3) == 0);
    CHECK_FOR(13, read_as(2, 0, 1, SECOND) == 25);
    CHECK_FOR(14, read_as(3, 0, 1, SECOND) == 0);
    CHECK_FOR(15, put(DROP, 3, 0, 1, 0) == 25);
    CHECK_FOR(16, put(DROP, 0, 0, 1, 0) == 0);
    CHECK_FOR(17, memcmp(area.slice, EMPTY, RACK) == 0);
    CHECK_FOR(18, read_as(3, 0, 1, SECOND) == 25);
    CHECK_FOR(19, load(0, 0, 1, FIRST, HEADER) == 0);
    CHECK_FOR(20, read_as(3, 0, 1, FIRST) == 25);
    CHECK_FOR(21, read_as(4, 9, 9, FIRST) == 23);
    CHECK_FOR(22, read_as(1, 1, 4, FIRST) == 24);
    CHECK_FOR(23, load(1, 1, 0, FIRST, 9) == 1);
    CHECK_FOR(24, load(1, 2, 0, FIRST, 9) == 25);
    last[11] = 1;
    memcpy(last + 12, FIRST, HEADER);
    CHECK_FOR(25, memcmp(area.slice, last, RACK) == 0);
}

/* ---- every place, every first byte, every caller, on an area of any other content */

/* What the calls of these missions say of a place whose first byte is this one. */
static void test_status(uint64_t owner, uint64_t place, unsigned status, uint64_t caller,
                        uint64_t to) {
    const bool own = caller == owner, loaded = status != 0, lent = status == 2 + caller;
    const unsigned to_reader = loaded && (own || lent) ? 0 : 25, to_owner = loaded ? 0 : 25;
    const unsigned to_lender = to == caller ? 23 : own ? 0 : 25;
    lend(&area, NULL, RACK);
    uint8_t *const entry = entry_of(owner, place);
    entry[0] = (uint8_t)status;
    CHECK_FOR(status, read_as(caller, owner, place, entry + 1) == to_reader);
    CHECK_FOR(status, read_as(owner, owner, place, entry + 1) == to_owner);
    CHECK_FOR(status, load(caller, owner, place, FIRST, HEADER) == (own ? 0 : 25));
    CHECK_FOR(status, put(LEND, caller, owner, place, to) == to_lender);
    lend(&area, NULL, RACK);
    entry[0] = (uint8_t)status;
    CHECK_FOR(status, put(LEND, owner, owner, place, (owner + 1 + to % 3) % 4) == to_owner);
    entry[0] = (uint8_t)status;
    CHECK_FOR(status, put(DROP, caller, owner, place, 0) == (own && loaded ? 0 : 25));
    CHECK_FOR(status, put(DROP, owner, owner, place, 0) == (loaded && !own ? 0 : 25));
}

static void test_statuses(void) {
    for (uint64_t owner = 0; owner < MISSIONS; owner++) {
        for (uint64_t place = 0; place < PLACES; place++) {
            for (unsigned status = 0; status < 256; status++) {
                const uint64_t caller = random_below(MISSIONS), to = random_below(MISSIONS);
                test_status(owner, place, status, caller, to);
            }
        }
    }
}

/* ---- refusals */

static const uint64_t WRONG[] = {4,
                                 5,
                                 255,
                                 256,
                                 257,
                                 UINT64_C(1) << 32,
                                 (UINT64_C(1) << 32) + 1,
                                 UINT64_C(1) << 62, /* four times this is nothing in 64 bits */
                                 (UINT64_C(1) << 62) + 1,
                                 UINT64_C(1) << 63,
                                 UINT64_MAX - 2,
                                 UINT64_MAX};

/* Numbers that are no mission or no place, in each call and each argument. Everything after them
 * is wrong too: another's empty place, a header that is none, slices of other lengths. */
static void test_numbers(void) {
    for (size_t i = 0; i < sizeof WRONG / sizeof WRONG[0]; i++) {
        for (int good = 0; good < 2; good++) {
            lend(&area, NULL, good ? RACK : 5);
            lend(&header, good ? FIRST : NULL, good ? HEADER : 3);
            for (enum kind kind = LOAD; kind < KINDS; kind++) {
                CHECK_FOR(i, put(kind, WRONG[i], 1, 1, 2) == 23);
                CHECK_FOR(i, put(kind, 1, WRONG[i], 1, 2) == 23);
                CHECK_FOR(i, put(kind, WRONG[i], WRONG[i], WRONG[i], WRONG[i]) == 23);
                CHECK_FOR(i, put(kind, WRONG[i], 1, WRONG[i], 1) == 23);
                CHECK_FOR(i, put(kind, 1, 1, WRONG[i], 2) == 24);
                CHECK_FOR(i, put(kind, 1, 3, WRONG[i], 2) == 24);
            }
            CHECK_FOR(i, put(LEND, 1, 1, 1, WRONG[i]) == 23);
            CHECK_FOR(i, put(LEND, 1, 1, WRONG[i], 1) == 23);
            CHECK_FOR(i, put(LEND, 1, 2, 3, WRONG[i]) == 23);
        }
    }
    lend(&area, NULL, 0); /* a loan to the owner by another is none to oneself */
    CHECK_FOR(0, put(LEND, 1, 2, 3, 2) == 25);
    CHECK_FOR(0, put(LEND, 1, 2, 3, 1) == 23);
}

/* Question 25 comes before those on a header, and 8 last. */
static void test_lengths(void) {
    static const size_t LENGTHS[] = {0, 1, 11, 164, 165, 166, 175, 177, 352, 1000};
    uint8_t bytes[PAGE];
    memset(bytes, 1, sizeof bytes);
    for (size_t i = 0; i < sizeof LENGTHS / sizeof LENGTHS[0]; i++) {
        const size_t len = LENGTHS[i];
        const unsigned there = len > 165 ? 8 : 25; /* the first byte of the last place */
        lend(&area, bytes, len);
        CHECK_FOR(len, load(3, 3, 3, FIRST, HEADER) == 8);
        CHECK_FOR(len, load(3, 3, 3, FIRST, 9) == 1);
        CHECK_FOR(len, load(3, 2, 3, FIRST, 9) == 25);
        CHECK_FOR(len, read_as(3, 3, 3, FIRST) == there);
        CHECK_FOR(len, read_as(2, 3, 3, FIRST) == 25);
        CHECK_FOR(len, put(DROP, 3, 3, 3, 0) == there);
        CHECK_FOR(len, put(DROP, 2, 3, 3, 0) == 25);
        CHECK_FOR(len, put(LEND, 3, 3, 3, 0) == there);
        CHECK_FOR(len, put(LEND, 2, 3, 3, 0) == 25);
        CHECK_FOR(len, put(DROP, 0, 0, 0, 0) == (len > 0 ? 8 : 25));
    }
    lend(&area, bytes, RACK);
    for (size_t len = 0; len < 40; len++) {
        lend(&header, NULL, len);
        CHECK_FOR(len, put(READ, 0, 0, 0, 0) == (len == HEADER ? 0 : 8));
        CHECK_FOR(len, put(READ, 1, 0, 0, 0) == 25);
    }
    CHECK_FOR(0, mahyrei_rack_load(NULL, 0, 0, 0, 0, FIRST, HEADER) == 8);
    CHECK_FOR(0, mahyrei_rack_load(NULL, 0, 0, 0, 0, NULL, 0) == 1);
    CHECK_FOR(0, mahyrei_rack_read(NULL, 0, 0, 0, 0, NULL, 0) == 25);
    CHECK_FOR(0, mahyrei_rack_read(area.slice, RACK, 0, 0, 0, NULL, 0) == 8);
    CHECK_FOR(0, mahyrei_rack_drop(NULL, 0, 0, 0, 0) == 25);
    CHECK_FOR(0, mahyrei_rack_lend(NULL, 0, 0, 0, 0, 1) == 25);
}

/* A header that is refused leaves what was there, and the loan. */
static void test_headers(void) {
    static const struct {
        unsigned number;
        struct run run;
    } KNOWN[] = {
        {2, {3, 9, 0, 0, 0, 0, 0, 5}},          {3, {1, 9, 0, 0, 0, 0, 0, 5}},
        {4, {1, 8, 0, 63, 0, 0, 0, 5}},         {4, {1, 8, 6, 257, 900, 2, 3, 1}},
        {5, {1, 8, 6, 62, 0, 0, 0, 5}},         {6, {1, 8, 6, 63, 0, 0, 3, 5}},
        {6, {1, 8, 6, 63, 900, 2, 65, 1}},      {7, {1, 8, 6, 63, 900, 0, 3, 5}},
        {7, {1, 8, 6, 63, 900, 33, 3, 1}},      {20, {1, 8, 6, 63, 900, 2, 3, 5}},
        {20, {1, 8, 6, 63, 900, 2, 3, 0}},      {0, {1, 8, 6, 63, 900, 2, 3, 32}},
        {0, {0, 8, 127, 255, 2048, 32, 64, 1}},
    };
    uint8_t bytes[2 * HEADER] = {0};
    for (size_t i = 0; i < sizeof KNOWN / sizeof KNOWN[0]; i++) {
        pack_header(&KNOWN[i].run, bytes);
        lend(&area, NULL, RACK);
        memcpy(entry_of(2, 1) + 1, FIRST, HEADER);
        entry_of(2, 1)[0] = 5; /* lent to mission 3 */
        CHECK_FOR(i, load(2, 2, 1, bytes, HEADER) == KNOWN[i].number);
        CHECK_FOR(i, read_as(3, 2, 1, KNOWN[i].number == 0 ? bytes : FIRST) == 0);
    }
    for (size_t len = 0; len <= sizeof bytes; len++) {
        CHECK_FOR(len, load(2, 2, 1, bytes, len) == (len == HEADER ? 0 : 1));
    }
    for (size_t bit = 54; bit < 8 * HEADER; bit++) {
        flip(bytes, bit);
        CHECK_FOR(bit, load(2, 2, 1, bytes, HEADER) == 1);
        flip(bytes, bit);
    }
}

static void test_every_number_met(void) {
    static const unsigned LOADS[] = {0, 1, 2, 3, 4, 5, 6, 7, 8, 20, 23, 24, 25, 256};
    static const unsigned OTHERS[] = {0, 8, 23, 24, 25, 256};
    unsigned long total = 0, expected = 0;
    for (int kind = 0; kind < KINDS; kind++) {
        for (size_t i = 0; i < 256; i++) {
            total += met[kind][i];
        }
        for (const unsigned *number = kind == LOAD ? LOADS : OTHERS; *number < 256; number++) {
            CHECK_FOR(*number, met[kind][*number] > 0);
            expected += met[kind][*number];
        }
    }
    CHECK_FOR(0, total == expected);
    printf("rack_calls: %lu calls, %lu checks, %lu failed\n", total, checks, failures);
}

int main(void) {
    map_page(&area);
    map_page(&header);
    lend(&header, NULL, 0);
    test_trace();
    test_statuses();
    test_numbers();
    test_lengths();
    test_headers();
    test_every_number_met();
    return failures == 0 ? EXIT_SUCCESS : EXIT_FAILURE;
}
