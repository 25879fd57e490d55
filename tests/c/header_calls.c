/*
 * Test of mahyrei_header_widen and mahyrei_header_narrow from C: known headers there and back,
 * headers of all kinds of fields beside what mahyrei_run_write says of them, and refusals of every
 * number with the lent bytes unchanged.
 *
 * The library is not built with sanitizers. So each slice is lent from a page of its own: it ends
 * where a page begins that may not be touched, the bytes before it are compared after the call, and
 * the header that is read is write-protected.
 */
#define _DEFAULT_SOURCE /* MAP_ANONYMOUS */
#include <inttypes.h>
#include <stdbool.h>
#include <stdio.h>
#include <stdlib.h>
#include <string.h>
#include <sys/mman.h>

#include "check.h"
#include "mahyrei.h"
#include "runs.h"

enum { PAGE = 4096, MARGIN = 64, OLD = MAHYREI_OLD_HEADER_BYTES, NEW = MAHYREI_HEADER_BYTES };

static unsigned long met[2][256]; /* answers by call and number */

/* ---- the calls, on slices at the ends of pages */

struct lent {
    uint8_t *page, *slice;
    uint8_t before[PAGE]; /* what the last bytes of the page held when they were lent */
};

static struct lent from, to;

static void map_page(struct lent *lent) {
    lent->page = mmap(NULL, 2 * PAGE, PROT_READ | PROT_WRITE, MAP_PRIVATE | MAP_ANONYMOUS, -1, 0);
    if (lent->page == MAP_FAILED || mprotect(lent->page + PAGE, PAGE, PROT_NONE) != 0) {
        perror("mmap");
        exit(1);
    }
}

static void protect(const struct lent *lent, int protection) {
    if (mprotect(lent->page, PAGE, protection) != 0) {
        perror("mprotect");
        exit(1);
    }
}

/* The first of these bytes, or where there are none random ones, after random bytes. */
static void lend(struct lent *lent, const uint8_t *bytes, size_t len) {
    for (size_t i = PAGE - MARGIN - len; i < PAGE; i++) {
        lent->page[i] = (uint8_t)random_below(256);
    }
    lent->slice = lent->page + PAGE - len;
    if (bytes != NULL && len > 0) {
        memcpy(lent->slice, bytes, len);
    }
    memcpy(lent->before, lent->page, PAGE);
}

typedef uint64_t trip(const uint8_t *, size_t, uint8_t *, size_t);

static uint64_t call(trip *trip, const uint8_t *header, size_t len, size_t to_len) {
    lend(&from, header, len);
    lend(&to, NULL, to_len);
    protect(&from, PROT_READ);
    const uint64_t answer = trip(from.slice, len, to.slice, to_len);
    protect(&from, PROT_READ | PROT_WRITE);
    met[trip == mahyrei_header_narrow][mahyrei_answer_number(answer)]++;
    CHECK(memcmp(from.page, from.before, PAGE) == 0);
    CHECK(memcmp(to.page, to.before, answer == MAHYREI_ACCEPTED ? PAGE - to_len : PAGE) == 0);
    return answer;
}

static uint64_t widen(const uint8_t *eight, size_t len, size_t to_len) {
    return call(mahyrei_header_widen, eight, len, to_len);
}

static uint64_t narrow(const uint8_t *ten, size_t len, size_t to_len) {
    return call(mahyrei_header_narrow, ten, len, to_len);
}

/* ---- the tests */

/* The specification's example, the largest run, the smallest fields, README's example, and fields
 * with many bits set. */
static const struct {
    uint8_t eight[OLD], ten[NEW];
} KNOWN[] = {
    {{0x59, 0x50, 0xF0, 0x1B, 0xE8, 0x02, 0, 0}, {0x59, 0x50, 0xF0, 0x1B, 0xE8, 0x02, 4, 0, 0, 0}},
    {{0x21, 0xFD, 0xFF, 0x00, 0x10, 0x40, 0, 0}, {0x21, 0xFD, 0xFF, 0x00, 0x10, 0x40, 4, 0, 0, 0}},
    {{0x08, 0x04, 0x02, 0x00, 0x20, 0x81, 0, 0}, {0x08, 0x04, 0x02, 0x00, 0x20, 0x81, 4, 0, 0, 0}},
    {{0x50, 0x04, 0x02, 0x1B, 0xE1, 0x01, 0, 0}, {0x50, 0x04, 0x02, 0x1B, 0xE1, 0x01, 4, 0, 0, 0}},
    {{0x9C, 0x05, 0xFE, 0xFF, 0xEF, 0xBF, 0, 0}, {0x9C, 0x05, 0xFE, 0xFF, 0xEF, 0xBF, 4, 0, 0, 0}},
};

static void test_known(void) {
    for (size_t i = 0; i < sizeof KNOWN / sizeof KNOWN[0]; i++) {
        CHECK(widen(KNOWN[i].eight, OLD, NEW) == MAHYREI_ACCEPTED);
        CHECK(memcmp(to.slice, KNOWN[i].ten, NEW) == 0);
        CHECK(narrow(KNOWN[i].ten, NEW, OLD) == MAHYREI_ACCEPTED);
        CHECK(memcmp(to.slice, KNOWN[i].eight, OLD) == 0);
        CHECK(widen(KNOWN[i].eight, OLD, OLD) == MAHYREI_BAD_LENGTH);
        CHECK(narrow(KNOWN[i].ten, NEW, NEW) == MAHYREI_BAD_LENGTH);
        CHECK(widen(KNOWN[i].ten, NEW, NEW) == MAHYREI_BAD_HEADER);
        CHECK(narrow(KNOWN[i].eight, OLD, OLD) == MAHYREI_BAD_HEADER);
    }
}

/* Fields about their ranges, so that many headers pass. */
static struct run some_run(void) {
    static const uint64_t B[] = {0, 1, 21, 60, 120, 180, 189, 255, 256, 257};
    static const uint64_t N[] = {0, 1, 1, 1, 2, 4, 5, 10, 21, 84, 127, 128, 129};
    static const uint64_t COPIES[] = {0, 1, 1, 1, 1, 2, 3, 4, 5, 8, 16, 31, 32, 33, 63};
    return (struct run){random_below(16) == 0 ? 3 : random_below(3),
                        1 + random_below(9),
                        N[random_below(sizeof N / sizeof N[0])],
                        B[random_below(sizeof B / sizeof B[0])],
                        random_below(8) == 0 ? 2047 + random_below(3) : random_below(300),
                        random_below(34),
                        random_below(66),
                        COPIES[random_below(sizeof COPIES / sizeof COPIES[0])]};
}

/* With nothing else lent, mahyrei_run_write asks of a header what both trips do, then 8. */
static unsigned of_header(const uint8_t *ten) {
    return mahyrei_answer_number(mahyrei_run_write(ten, NEW, NULL, 0, NULL, 0, NULL, 0));
}

static void test_fields(void) {
    for (int i = 0; i < 20000; i++) {
        struct run run = some_run();
        uint8_t eight[OLD], ten[NEW], once[NEW];
        pack_old_header(&run, eight);
        pack_header(&run, ten);
        const unsigned number = of_header(ten);
        CHECK(narrow(ten, NEW, random_below(OLD)) == number);
        const bool whole = number == MAHYREI_BAD_LENGTH;
        CHECK(narrow(ten, NEW, OLD) == (!whole            ? number
                                        : run.copies != 1 ? MAHYREI_NO_OLD_HEADER
                                                          : MAHYREI_ACCEPTED));
        CHECK(!whole || run.copies != 1 || memcmp(to.slice, eight, OLD) == 0);
        run.copies = 1;
        pack_header(&run, once);
        const unsigned alone = of_header(once);
        CHECK(widen(eight, OLD, random_below(NEW)) == alone);
        CHECK(widen(eight, OLD, NEW) == (alone == MAHYREI_BAD_LENGTH ? MAHYREI_ACCEPTED : alone));
        CHECK(alone != MAHYREI_BAD_LENGTH || memcmp(to.slice, once, NEW) == 0);
    }
}

/* The six bits of the factor and the two after them: 1 before 20 before 8 before 21. */
static void test_factors(void) {
    uint8_t ten[NEW];
    memcpy(ten, KNOWN[0].ten, NEW);
    for (unsigned byte = 0; byte < 256; byte++) {
        const unsigned factor = byte >> 2;
        const bool is_good = factor == 1 || factor == 2 || factor == 3 || factor == 4 ||
                             factor == 8 || factor == 16 || factor == 32;
        const unsigned refused = byte % 4 != 0 ? MAHYREI_BAD_HEADER : MAHYREI_BAD_COPIES;
        const bool passes = byte % 4 == 0 && is_good;
        ten[6] = (uint8_t)byte;
        CHECK(narrow(ten, NEW, OLD) == (!passes       ? refused
                                        : factor != 1 ? MAHYREI_NO_OLD_HEADER
                                                      : MAHYREI_ACCEPTED));
        CHECK(narrow(ten, NEW, OLD - 1) == (passes ? MAHYREI_BAD_LENGTH : refused));
        CHECK(narrow(ten, NEW, NEW) == (passes ? MAHYREI_BAD_LENGTH : refused));
        ten[0] |= 0xC0; /* no such rate */
        CHECK(narrow(ten, NEW, OLD) == (byte % 4 != 0 ? MAHYREI_BAD_HEADER : MAHYREI_BAD_RATE));
        ten[0] = KNOWN[0].ten[0];
    }
}

/* Every single bit after the fields, and every length. */
static void test_forms(void) {
    for (size_t bit = 54; bit < 8 * NEW; bit++) {
        uint8_t ten[NEW];
        memcpy(ten, KNOWN[0].ten, NEW);
        flip(ten, bit);
        CHECK(narrow(ten, NEW, OLD) == MAHYREI_BAD_HEADER);
    }
    for (size_t bit = 48; bit < 8 * OLD; bit++) {
        uint8_t eight[OLD];
        memcpy(eight, KNOWN[0].eight, OLD);
        flip(eight, bit);
        CHECK(widen(eight, OLD, NEW) == MAHYREI_BAD_HEADER);
    }
    for (size_t len = 0; len < 24; len++) {
        uint8_t eight[24] = {0}, ten[24] = {0};
        memcpy(eight, KNOWN[0].eight, OLD);
        memcpy(ten, KNOWN[0].ten, NEW);
        CHECK(widen(eight, len, NEW) == (len == OLD ? MAHYREI_ACCEPTED : MAHYREI_BAD_HEADER));
        CHECK(narrow(ten, len, OLD) == (len == NEW ? MAHYREI_ACCEPTED : MAHYREI_BAD_HEADER));
        CHECK(widen(eight, OLD, len) == (len == NEW ? MAHYREI_ACCEPTED : MAHYREI_BAD_LENGTH));
        CHECK(narrow(ten, NEW, len) == (len == OLD ? MAHYREI_ACCEPTED : MAHYREI_BAD_LENGTH));
    }
    CHECK(mahyrei_header_widen(NULL, 0, NULL, 0) == MAHYREI_BAD_HEADER);
    CHECK(mahyrei_header_narrow(NULL, 0, NULL, 0) == MAHYREI_BAD_HEADER);
    CHECK(mahyrei_header_widen(KNOWN[0].eight, OLD, NULL, 0) == MAHYREI_BAD_LENGTH);
    CHECK(mahyrei_header_narrow(KNOWN[0].ten, NEW, NULL, 0) == MAHYREI_BAD_LENGTH);
}

static void test_every_number_met(void) {
    unsigned long total = 0, expected = 0;
    for (size_t number = 0; number < 256; number++) {
        const bool of_widen = number <= 8, of_narrow = of_widen || number == 20 || number == 21;
        total += met[0][number] + met[1][number];
        expected += (of_widen ? met[0][number] : 0) + (of_narrow ? met[1][number] : 0);
        CHECK(!of_widen || met[0][number] > 0);
        CHECK(!of_narrow || met[1][number] > 0);
    }
    CHECK(total == expected);
    printf("header_calls: %lu calls, %lu checks, %lu failed\n", total, checks, failures);
}

int main(void) {
    map_page(&from);
    map_page(&to);
    test_known();
    test_fields();
    test_factors();
    test_forms();
    test_every_number_met();
    return failures == 0 ? EXIT_SUCCESS : EXIT_FAILURE;
}
