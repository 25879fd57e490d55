/*
 * Test of the two delay calls from C: known symbols, the bytes that a step changes, whole runs
 * through both sides beside the slots that mahyrei_run_write makes, and refusals of every number
 * with the area unchanged.
 *
 * The sanitizers watch this program but not the library, which is not built with them. So the area
 * is lent from pages of its own: it ends where a page begins that may not be touched, and the bytes
 * before it are compared after the call; the header is write-protected.
 */
#define _DEFAULT_SOURCE /* MAP_ANONYMOUS */
#include <inttypes.h>
#include <stdbool.h>
#include <stdio.h>
#include <stdlib.h>
#include <string.h>
#include <sys/mman.h>

#include "check.h"
#include "mahyrei.h"
#include "runs.h"

enum { PAGE = 4096, MARGIN = 64, AREA_MAX = 2040255, ROOM = 499 * PAGE };

static unsigned long met[2][256]; /* answers by call and number */

/* ---- what is lent: the area and the header, each at the end of its pages */

static uint8_t *area_pages, *header_page;

static uint8_t *map_pages(size_t len) {
    uint8_t *const pages =
        mmap(NULL, len + PAGE, PROT_READ | PROT_WRITE, MAP_PRIVATE | MAP_ANONYMOUS, -1, 0);
    if (pages == MAP_FAILED || mprotect(pages + len, PAGE, PROT_NONE) != 0) {
        perror("mmap");
        exit(1);
    }
    return pages;
}

static void protect_header(int protection) {
    if (mprotect(header_page, PAGE, protection) != 0) {
        perror("mprotect");
        exit(1);
    }
}

static uint8_t *area_of(size_t len) {
    return area_pages + ROOM - len;
}

static const uint8_t *lend_header(const uint8_t *header, size_t len) {
    uint8_t *const lent = header_page + PAGE - len;
    protect_header(PROT_READ | PROT_WRITE);
    memcpy(lent, header, len);
    protect_header(PROT_READ);
    return lent;
}

static uint64_t put(bool reading, const uint8_t *header, size_t header_len, uint64_t step,
                    uint64_t symbol, uint8_t *area, size_t len) {
    const uint64_t answer = reading
                                ? mahyrei_delay_read(header, header_len, step, symbol, area, len)
                                : mahyrei_delay_write(header, header_len, step, symbol, area, len);
    met[reading][mahyrei_answer_number(answer)]++;
    return answer;
}

/* A refused step: the answer is the number alone, and no byte has changed. */
static void refuse(unsigned number, bool reading, const uint8_t *header, size_t header_len,
                   uint64_t step, uint64_t symbol, size_t len) {
    static uint8_t before[ROOM];
    uint8_t *const area = area_of(len);
    fill_random(area - MARGIN, len + MARGIN);
    memcpy(before, area - MARGIN, len + MARGIN);
    CHECK_FOR(step, put(reading, lend_header(header, header_len), header_len, step, symbol, area,
                        len) == number);
    CHECK_FOR(step, memcmp(area - MARGIN, before, len + MARGIN) == 0);
    CHECK_FOR(step, mahyrei_delay_symbol(number) == 0);
}

/* ---- the rule, by adding up */

static const size_t NO_BYTE = SIZE_MAX;

static size_t row_bytes(const struct run *run, bool reading, uint64_t row) {
    return (reading ? run->N - 1 - row : row) * run->B;
}

static size_t area_bytes(const struct run *run) {
    size_t sum = 0;
    for (uint64_t row = 0; row < run->N; row++) {
        sum += row_bytes(run, false, row);
    }
    return sum;
}

static size_t byte_of(const struct run *run, bool reading, uint64_t step) {
    size_t begin = 0;
    const size_t len = row_bytes(run, reading, step % run->N);
    for (uint64_t row = 0; row < step % run->N; row++) {
        begin += row_bytes(run, reading, row);
    }
    return len == 0 ? NO_BYTE : begin + step / run->N % len;
}

/* One accepted step on an area of any content: it gives the byte of the rule and puts the symbol
 * there, and changes no other. */
static void step_alone(const struct run *run, bool reading, uint64_t step, uint64_t symbol) {
    static uint8_t expected[ROOM];
    uint8_t header[MAHYREI_HEADER_BYTES];
    const size_t len = area_bytes(run), at = byte_of(run, reading, step);
    uint8_t *const area = area_of(len);
    pack_header(run, header);
    memcpy(expected, area - MARGIN, len + MARGIN);
    const uint64_t given = at == NO_BYTE ? symbol : area[at];
    if (at != NO_BYTE) {
        expected[MARGIN + at] = (uint8_t)symbol;
    }
    const uint64_t answer =
        put(reading, lend_header(header, sizeof header), sizeof header, step, symbol, area, len);
    CHECK_FOR(step, answer == given << 8);
    CHECK_FOR(step, mahyrei_answer_number(answer) == MAHYREI_ACCEPTED &&
                        mahyrei_delay_symbol(answer) == given);
    CHECK_FOR(step, memcmp(area - MARGIN, expected, len + MARGIN) == 0);
}

/* ---- lines */

/* One of each m with several rows, two with many; F, W and A do not matter. */
static const struct run RUNS[] = {
    {1, 2, 6, 252, 200, 2, 3, 1}, {0, 3, 8, 90, 40, 1, 1, 2},     {1, 4, 5, 189, 500, 5, 3, 3},
    {2, 5, 28, 4, 60, 3, 2, 4},   {1, 6, 84, 30, 223, 16, 2, 8},  {0, 7, 6, 72, 1, 32, 1, 16},
    {1, 8, 6, 63, 900, 2, 3, 32}, {2, 8, 127, 255, 100, 1, 1, 1}, {0, 8, 127, 15, 100, 1, 1, 1},
    {1, 4, 1, 256, 223, 2, 1, 1},
};

enum { RUN_COUNT = sizeof RUNS / sizeof RUNS[0], KNOWN = 6, LONGEST = 7 };

/* Symbols n + 1 through both sides of 6 rows of 63. */
static void test_known(void) {
    static uint8_t written[945], read[945];
    uint8_t header[MAHYREI_HEADER_BYTES];
    const struct run run = {1, 8, 6, 63, 900, 2, 3, 1};
    pack_header(&run, header);
    static const uint8_t KNOWN_HEADER[] = {0x60, 0x18, 0x7E, 0x70, 0x81, 0x03, 0x04, 0, 0, 0};
    CHECK_FOR(0, sizeof header == 10 && memcmp(header, KNOWN_HEADER, sizeof header) == 0);
    memset(written, 0, sizeof written);
    memset(read, 0, sizeof read);
    for (uint64_t n = 0; n < 4000; n++) {
        const uint64_t taken = (n + 1) % 256;
        const uint64_t given = mahyrei_delay_symbol(
            mahyrei_delay_write(header, sizeof header, n, taken, written, sizeof written));
        CHECK_FOR(n, n % 6 == 0 ? given == taken : n >= 8 || given == 0);
        CHECK_FOR(n, n != 378 || given == 123);
        CHECK_FOR(n, n != 379 || given == 2);
        const uint64_t back = mahyrei_delay_symbol(
            mahyrei_delay_read(header, sizeof header, n, given, read, sizeof read));
        CHECK_FOR(n, back == (n < 1890 ? 0 : (n - 1890 + 1) % 256));
    }
}

/* Rows of the example: a step of row i at turn 0 changes the first byte of the row. */
static void test_begins(void) {
    static const size_t WRITING[] = {0, 0, 63, 189, 378, 630}, READING[] = {0, 315, 567, 756, 882};
    const struct run *const run = &RUNS[KNOWN];
    for (size_t row = 0; row < 6; row++) {
        CHECK_FOR(row, row == 0 || byte_of(run, false, row) == WRITING[row]);
        CHECK_FOR(row, row == 5 || byte_of(run, true, row) == READING[row]);
    }
    CHECK_FOR(0, byte_of(run, false, 0) == NO_BYTE && byte_of(run, true, 5) == NO_BYTE);
    CHECK_FOR(UINT64_MAX, byte_of(run, false, UINT64_MAX) == 359);
    CHECK_FOR(UINT64_MAX, byte_of(run, true, UINT64_MAX) == 800);
    CHECK_FOR(UINT64_MAX, byte_of(&RUNS[LONGEST], false, UINT64_MAX) == 2);
    CHECK_FOR(UINT64_MAX, byte_of(&RUNS[LONGEST], true, UINT64_MAX) == 54062);
    CHECK_FOR(0, area_bytes(&RUNS[LONGEST]) == AREA_MAX);
}

/* Steps of any number, on foreign bytes, which are given back as they are. */
static void test_alone(const struct run *run) {
    const uint64_t N = run->N, M = UINT64_C(1) << run->m;
    const uint64_t steps[] = {0,
                              1,
                              N - 1,
                              N,
                              N + 1,
                              N * N,
                              UINT64_MAX,
                              UINT64_MAX - 1,
                              UINT64_MAX - N,
                              UINT64_C(1) << 63,
                              UINT64_MAX / N * N,
                              UINT64_MAX / N * N - 1,
                              UINT32_MAX,
                              UINT64_C(1) << 32};
    const size_t len = area_bytes(run), more = len > 100000 ? 20 : 400;
    for (int reading = 0; reading < 2; reading++) {
        fill_random(area_of(len) - MARGIN, len + MARGIN);
        for (size_t i = 0; i < sizeof steps / sizeof steps[0]; i++) {
            step_alone(run, reading, steps[i], random_below(M));
        }
        for (uint64_t i = 0; i < more; i++) {
            step_alone(run, reading, i % 2 == 0 ? random_number() : i, random_below(M));
        }
        step_alone(run, reading, random_number(), M - 1);
        step_alone(run, reading, random_number(), 0);
    }
}

/* ---- whole runs */

/* The symbol, markers counted, of a place of step 9. */
static size_t symbol_of_place(const struct run *run, size_t place) {
    return place / word_symbols(run) * period(run) + run->W + place % word_symbols(run);
}

static uint8_t get_symbol(const struct run *run, const uint8_t *slots, size_t symbol) {
    size_t at = copy_start(run, symbol, 0), q = 0;
    while (!get_bit(slots, at + q)) {
        q++;
    }
    return (uint8_t)q;
}

/* The symbols of the words that are in the slots of mahyrei_run_write, through the writer, zeros
 * after them: its places come out. And through the reader: the symbols. */
static void test_run(const struct run *given) {
    struct run run = *given;
    run.copies = 1; /* the lines take no account of it, and the slots are fewer */
    uint8_t header[MAHYREI_HEADER_BYTES], marker[MAHYREI_MARKER_MAX];
    pack_header(&run, header);
    uint8_t *const frames = malloc(frame_bytes(&run)), *const slots = malloc(slot_bytes(&run));
    uint8_t *const read_area = calloc(area_bytes(&run) + 1, 1);
    const size_t all = place_count(&run), late = run.N * (run.N - 1) * run.B;
    const size_t symbols = all - late, len = area_bytes(&run);
    if (frames == NULL || slots == NULL || read_area == NULL) {
        perror("malloc");
        exit(1);
    }
    fill_random(frames, frame_bytes(&run));
    memset(marker, 1, sizeof marker);
    CHECK_FOR(0, mahyrei_run_write(header, sizeof header, marker, run.W, frames, frame_bytes(&run),
                                   slots, slot_bytes(&run)) == MAHYREI_ACCEPTED);
    pack_header(given, header);
    uint8_t *const area = area_of(len);
    const uint8_t *const lent = lend_header(header, sizeof header);
    memset(area, 0, len);
    for (size_t n = 0; n < all; n++) {
        const uint8_t taken = n < symbols ? get_symbol(&run, slots, run_symbol(&run, n)) : 0;
        const uint64_t answer = put(false, lent, sizeof header, n, taken, area, len);
        const uint8_t place = get_symbol(&run, slots, symbol_of_place(&run, n));
        CHECK_FOR(n, answer == (uint64_t)place << 8);
        const uint64_t back = put(true, lent, sizeof header, n, place, read_area, len);
        const uint8_t was = n < late ? 0 : get_symbol(&run, slots, run_symbol(&run, n - late));
        CHECK_FOR(n, back == (uint64_t)was << 8);
    }
    free(frames);
    free(slots);
    free(read_area);
}

/* ---- refusals */

/* N = 1: a line of no bytes, which may be NULL, gives back what it takes. */
static void test_one_row(void) {
    uint8_t header[MAHYREI_HEADER_BYTES];
    for (uint64_t m = 2; m <= 8; m++) {
        for (uint64_t B = 1; B <= 256; B += 51) {
            const struct run run = {0, m, 1, B, 1, 1, 1, 1};
            pack_header(&run, header);
            for (int reading = 0; reading < 2; reading++) {
                const uint64_t symbol = random_number() >> (64 - m), step = random_number();
                CHECK_FOR(step, put(reading, header, sizeof header, step, symbol, NULL, 0) ==
                                    symbol << 8);
                refuse(MAHYREI_BAD_LENGTH, reading, header, sizeof header, step, symbol, 1);
                CHECK_FOR(step, put(reading, header, sizeof header, step, UINT64_C(1) << m, NULL,
                                    0) == MAHYREI_BAD_SYMBOL);
            }
        }
    }
}

/* Headers that fail a question; the area has another length too, and the symbol is none. */
static void test_headers(void) {
    static const struct {
        unsigned number;
        struct run run;
    } WRONG[] = {
        {2, {3, 9, 0, 0, 0, 0, 0, 5}},      {3, {1, 9, 0, 0, 0, 0, 0, 5}},
        {3, {1, 1, 6, 63, 900, 2, 3, 1}},   {4, {1, 8, 0, 63, 0, 0, 0, 5}},
        {4, {1, 8, 129, 63, 900, 2, 3, 1}}, {4, {1, 8, 6, 0, 900, 2, 3, 1}},
        {4, {1, 8, 6, 257, 900, 2, 3, 1}},  {5, {1, 8, 6, 62, 0, 0, 0, 5}},
        {5, {1, 8, 2, 63, 900, 2, 3, 1}},   {6, {1, 8, 6, 63, 0, 0, 3, 5}},
        {6, {1, 8, 6, 63, 2049, 2, 3, 1}},  {6, {1, 8, 6, 63, 900, 2, 65, 1}},
        {7, {1, 8, 6, 63, 900, 0, 3, 5}},   {7, {1, 8, 6, 63, 900, 33, 3, 1}},
        {20, {1, 8, 6, 63, 900, 2, 3, 5}},  {20, {1, 8, 6, 63, 900, 2, 3, 0}},
    };
    static const size_t LENGTHS[] = {0, 944, 945};
    uint8_t header[MAHYREI_HEADER_BYTES + 6] = {0};
    for (size_t i = 0; i < sizeof WRONG / sizeof WRONG[0]; i++) {
        pack_header(&WRONG[i].run, header);
        for (size_t j = 0; j < 3; j++) {
            for (int reading = 0; reading < 2; reading++) {
                refuse(WRONG[i].number, reading, header, MAHYREI_HEADER_BYTES, random_number(),
                       j == 1 ? UINT64_MAX : 0, LENGTHS[j]);
            }
        }
    }
    memset(header, 0, sizeof header);
    pack_header(&RUNS[KNOWN], header);
    for (size_t len = 0; len <= sizeof header; len++) {
        if (len != MAHYREI_HEADER_BYTES) {
            refuse(MAHYREI_BAD_HEADER, len % 2 == 0, header, len, 0, 0, 945);
            refuse(MAHYREI_BAD_HEADER, len % 2 == 1, header, len, 0, 256, 0);
        }
    }
    CHECK_FOR(0, put(false, NULL, 0, 0, 0, NULL, 0) == MAHYREI_BAD_HEADER);
    CHECK_FOR(0, put(true, NULL, 0, 0, 0, NULL, 0) == MAHYREI_BAD_HEADER);
    for (size_t bit = 54; bit < 80; bit++) {
        flip(header, bit);
        refuse(MAHYREI_BAD_HEADER, bit % 2 == 0, header, MAHYREI_HEADER_BYTES, 0, 0, 945);
        flip(header, bit);
    }
}

/* Question 8, and then 26. */
static void test_lengths_and_symbols(const struct run *run) {
    const size_t right = area_bytes(run);
    const size_t lengths[] = {0, 1, right - 1, right + 1, right / 2, 2 * right};
    const uint64_t M = UINT64_C(1) << run->m;
    const uint64_t symbols[] = {
        M, M + 1, 2 * M, 255 + M, 256, 1 << 16, UINT64_C(1) << 32, UINT64_C(1) << 63, UINT64_MAX};
    uint8_t header[MAHYREI_HEADER_BYTES];
    pack_header(run, header);
    for (int reading = 0; reading < 2; reading++) {
        for (size_t i = 0; i < sizeof lengths / sizeof lengths[0]; i++) {
            if (lengths[i] != right && lengths[i] + MARGIN <= ROOM) {
                refuse(MAHYREI_BAD_LENGTH, reading, header, sizeof header, i, 0, lengths[i]);
                refuse(MAHYREI_BAD_LENGTH, reading, header, sizeof header, i, M, lengths[i]);
            }
        }
        CHECK_FOR(0, put(reading, header, sizeof header, 0, 0, NULL, 0) == MAHYREI_BAD_LENGTH);
        for (size_t i = 0; i < sizeof symbols / sizeof symbols[0]; i++) {
            for (uint64_t step = 0; step < 2; step++) { /* with a row of no bytes, and with one */
                refuse(MAHYREI_BAD_SYMBOL, reading, header, sizeof header, run->N - step,
                       symbols[i], right);
            }
        }
    }
}

static void test_every_number_met(void) {
    static const unsigned NUMBERS[] = {0, 1, 2, 3, 4, 5, 6, 7, 8, 20, 26};
    unsigned long total = 0, expected = 0;
    for (int call = 0; call < 2; call++) {
        for (size_t i = 0; i < 256; i++) {
            total += met[call][i];
        }
        for (size_t i = 0; i < sizeof NUMBERS / sizeof NUMBERS[0]; i++) {
            CHECK_FOR(NUMBERS[i], met[call][NUMBERS[i]] > 0);
            expected += met[call][NUMBERS[i]];
        }
    }
    CHECK_FOR(0, total == expected);
    printf("delay_calls: %lu calls, %lu checks, %lu failed\n", total, checks, failures);
}

int main(void) {
    area_pages = map_pages(ROOM);
    header_page = map_pages(PAGE);
    test_known();
    test_begins();
    for (size_t i = 0; i < RUN_COUNT; i++) {
        test_alone(&RUNS[i]);
        if (RUNS[i].N > 1) {
            test_lengths_and_symbols(&RUNS[i]);
        }
        if (i != LONGEST) { /* its slots are many */
            test_run(&RUNS[i]);
        }
    }
    test_one_row();
    test_headers();
    test_every_number_met();
    return failures == 0 ? EXIT_SUCCESS : EXIT_FAILURE;
}
