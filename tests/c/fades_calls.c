/*
 * Test of mahyrei_fades_count from C: known counts, lists on runs of every kind beside a count of
 * its own, and refusals of every number with the lent numbers unchanged.
 *
 * The library is not built with sanitizers. So each slice is lent from pages of its own: it ends
 * where a page begins that may not be touched, the bytes before it are compared after the call, and
 * the slices that the call reads are write-protected.
 */
#define _DEFAULT_SOURCE /* MAP_ANONYMOUS */
#include <inttypes.h>
#include <stdbool.h>
#include <stdio.h>
#include <stdlib.h>
#include <string.h>
#include <sys/mman.h>

#include "check.h"
#include "mahyrei.h"
#include "runs.h"

static unsigned long met[256]; /* answers by number */

/* ---- lent slices */

enum { PAGE = 4096, AREA = 256 * PAGE, MARGIN = 64 };

struct lent {
    uint8_t *area, *slice; /* the slice is at its end; the next page may not be touched */
    size_t len;            /* in bytes */
    uint8_t before[AREA];  /* what margin and slice held when they were lent */
};

static struct lent lent_header, lent_fades, lent_counts;

static void map_area(struct lent *lent) {
    lent->area =
        mmap(NULL, AREA + PAGE, PROT_READ | PROT_WRITE, MAP_PRIVATE | MAP_ANONYMOUS, -1, 0);
    if (lent->area == MAP_FAILED || mprotect(lent->area + AREA, PAGE, PROT_NONE) != 0) {
        perror("mmap");
        exit(1);
    }
}

static void protect(const struct lent *lent, int protection) {
    if (mprotect(lent->area, AREA, protection) != 0) {
        perror("mprotect");
        exit(1);
    }
}

/* These bytes, or where there are none random ones, after random bytes. */
static void lend(struct lent *lent, const void *bytes, size_t len) {
    if (len + MARGIN > AREA) {
        fprintf(stderr, "fades_calls.c: %zu bytes are too many to lend\n", len);
        exit(1);
    }
    lent->len = len;
    lent->slice = lent->area + AREA - len;
    for (size_t i = AREA - len - MARGIN; i < (bytes == NULL ? AREA : AREA - len); i++) {
        lent->area[i] = (uint8_t)random_below(256);
    }
    if (bytes != NULL && len > 0) {
        memcpy(lent->slice, bytes, len);
    }
    memcpy(lent->before, lent->slice - MARGIN, len + MARGIN);
}

static bool unchanged(const struct lent *lent, size_t count) {
    return memcmp(lent->slice - MARGIN, lent->before, count) == 0;
}

/* The counts are those of lent_counts. */
static uint64_t call(const uint8_t *header, size_t header_len, const uint32_t *fades,
                     size_t fades_len, size_t counts_len) {
    lend(&lent_header, header, header_len);
    lend(&lent_fades, fades, 4 * fades_len);
    lend(&lent_counts, NULL, 4 * counts_len);
    protect(&lent_header, PROT_READ);
    protect(&lent_fades, PROT_READ);
    const uint64_t answer = mahyrei_fades_count(
        lent_header.slice, header_len, (const uint32_t *)(void *)lent_fades.slice, fades_len,
        (uint32_t *)(void *)lent_counts.slice, counts_len);
    protect(&lent_header, PROT_READ | PROT_WRITE);
    protect(&lent_fades, PROT_READ | PROT_WRITE);
    met[mahyrei_answer_number(answer)]++;
    CHECK(unchanged(&lent_header, MARGIN + header_len));
    CHECK(unchanged(&lent_fades, MARGIN + 4 * fades_len));
    CHECK(unchanged(&lent_counts, MARGIN + (answer == MAHYREI_ACCEPTED ? 0 : 4 * counts_len)));
    return answer;
}

static uint32_t count_of(size_t word) {
    uint32_t count;
    memcpy(&count, lent_counts.slice + 4 * word, sizeof count);
    return count;
}

/* ---- known counts */

/* Three words of 1,890 symbols in four lines after two marker symbols: 7,568 symbols. */
static const struct run THREE = {1, 8, 6, 63, 900, 2, 3, 1};

static const struct {
    uint32_t fades[4];
    size_t len;
    uint32_t counts[3];
} KNOWN[] = {
    {{0}, 0, {0, 0, 0}},
    {{0, 2}, 2, {0, 0, 0}},    /* markers */
    {{1892, 2}, 2, {0, 0, 0}}, /* the next ones */
    {{2, 1}, 2, {1, 0, 0}},
    {{3, 1}, 2, {0, 0, 0}}, /* no word's symbol */
    {{0, 1892}, 2, {945, 0, 0}},
    {{1000, 500, 2000, 300}, 4, {556, 55, 0}},
    {{7567, 1}, 2, {0, 0, 1}},
    {{0, 7568}, 2, {1890, 1890, 1890}},
    {{0, 7567, 7567, 1}, 4, {1890, 1890, 1890}}, /* touching */
    {{3, 2, 5, 1}, 4, {0, 0, 0}},
};

static void test_known(void) {
    uint8_t header[MAHYREI_HEADER_BYTES];
    static const uint64_t FACTORS[] = {1, 2, 3, 32};
    CHECK(block_count(&THREE) == 3 && word_symbols(&THREE) == 1890 && symbol_count(&THREE) == 7568);
    for (size_t i = 0; i < sizeof KNOWN / sizeof KNOWN[0]; i++) {
        for (size_t f = 0; f < 4; f++) { /* whatever the factor is */
            struct run run = THREE;
            run.copies = FACTORS[f];
            pack_header(&run, header);
            CHECK(call(header, sizeof header, KNOWN[i].fades, KNOWN[i].len, 3) == MAHYREI_ACCEPTED);
            CHECK(memcmp(lent_counts.slice, KNOWN[i].counts, sizeof KNOWN[i].counts) == 0);
        }
    }
    static const uint8_t EXAMPLE[] = {0x59, 0x50, 0xF0, 0x1B, 0xE8, 0x02, 0x04, 0, 0, 0};
    const uint32_t all[] = {0, 844488}, between[] = {400000, 5000}, more[] = {0, 844489};
    CHECK(call(EXAMPLE, sizeof EXAMPLE, all, 2, 1) == MAHYREI_ACCEPTED && count_of(0) == 2520);
    CHECK(call(EXAMPLE, sizeof EXAMPLE, between, 2, 1) == MAHYREI_ACCEPTED && count_of(0) == 0);
    CHECK(call(EXAMPLE, sizeof EXAMPLE, more, 2, 1) == MAHYREI_BAD_FADES);
    pack_header(&THREE, header);
    uint32_t counts[3] = {7, 7, 7};
    CHECK(mahyrei_fades_count(header, sizeof header, NULL, 0, counts, 3) == MAHYREI_ACCEPTED);
    CHECK(counts[0] == 0 && counts[1] == 0 && counts[2] == 0);
}

/* ---- lists on runs of every kind */

enum { SYMBOLS_MAX = 1 << 16, FADES_MAX = SYMBOLS_MAX + 2, WORDS_MAX = 64 };

static bool covered[SYMBOLS_MAX];
static uint32_t list[2 * FADES_MAX];

/* Fades with gaps up to this wide, in a run of so many symbols. How many numbers that are. */
static size_t make_list(size_t symbols, size_t gap, size_t length) {
    size_t len = 0;
    memset(covered, 0, sizeof covered);
    for (size_t first = random_below(gap + 1); first < symbols;) {
        size_t size = 1 + random_below(length);
        size = size < symbols - first ? size : symbols - first;
        list[len++] = (uint32_t)first;
        list[len++] = (uint32_t)size;
        memset(covered + first, true, size);
        first += size + random_below(gap + 1);
    }
    return len;
}

/* The symbols of a word are where the place rule puts them. */
static uint32_t hits(const struct run *run, size_t word) {
    uint32_t count = 0;
    for (size_t i = 0; i < word_symbols(run); i++) {
        count += covered[run_symbol(run, word * word_symbols(run) + i)];
    }
    return count;
}

/* The covered symbols that are neither marker nor filler: a place is a word's where the draft
 * book's recursion for its source comes to a symbol. */
static uint64_t covered_in_words(const struct run *run) {
    const size_t S = word_symbols(run), all = block_count(run) * S;
    int64_t source = 0;
    uint64_t sum = 0;
    for (size_t j = 0; j < place_count(run); j++) {
        source = j % run->N == 0 ? (int64_t)j : source - (int64_t)(run->N * run->B) + 1;
        sum += source >= 0 && (size_t)source < all && covered[j / S * period(run) + run->W + j % S];
    }
    return sum;
}

static const struct run RUNS[] = {
    {0, 2, 6, 252, 300, 4, 2, 1},    {1, 3, 5, 252, 500, 1, 3, 2},  {2, 4, 5, 189, 2048, 32, 1, 1},
    {0, 5, 4, 252, 1, 7, 64, 32},    {1, 6, 4, 210, 223, 16, 2, 3}, {2, 7, 4, 180, 1000, 3, 3, 1},
    {0, 8, 6, 63, 1024, 2, 1, 16},   {1, 8, 1, 256, 800, 5, 1, 1},  {2, 3, 1, 9, 700, 2, 2, 8},
    {1, 8, 10, 21, 2000, 32, 10, 4},
};

static void test_lists(const struct run *run) {
    static const size_t SHAPES[][2] = {{0, 1},     {0, 3},    {1, 1},    {30, 5},
                                       {500, 100}, {2000, 9}, {5, 3000}, {60000, 60000}};
    const size_t symbols = symbol_count(run), C = block_count(run);
    uint8_t header[MAHYREI_HEADER_BYTES];
    pack_header(run, header);
    CHECK(symbols <= SYMBOLS_MAX && C <= WORDS_MAX);
    for (size_t i = 0; i < sizeof SHAPES / sizeof SHAPES[0]; i++) {
        const size_t len = make_list(symbols, SHAPES[i][0], SHAPES[i][1]);
        CHECK(call(header, sizeof header, list, len, C) == MAHYREI_ACCEPTED);
        uint64_t sum = 0;
        bool right = true;
        for (size_t word = 0; word < C; word++) {
            right = right && count_of(word) == hits(run, word);
            sum += count_of(word);
        }
        CHECK(right);
        CHECK(sum == covered_in_words(run));
        /* one symbol more, after the run or in the next fade; half a pair; counts of another word
         */
        list[len] = (uint32_t)symbols;
        list[len + 1] = 1;
        CHECK(call(header, sizeof header, list, len + 2, C) == MAHYREI_BAD_FADES);
        CHECK(call(header, sizeof header, list, len + 1, C) == MAHYREI_BAD_FADES);
        CHECK(call(header, sizeof header, list, len, C + 1) == MAHYREI_BAD_LENGTH);
        CHECK(call(header, sizeof header, list, len, C - 1) == MAHYREI_BAD_LENGTH);
        if (len >= 4) {
            const size_t at = 2 * random_below(len / 2 - 1);
            const uint32_t was = list[at + 1];
            list[at + 1] = list[at + 2] - list[at] + 1;
            CHECK(call(header, sizeof header, list, len, C) == MAHYREI_BAD_FADES);
            list[at + 1] = 0;
            CHECK(call(header, sizeof header, list, len, C) == MAHYREI_BAD_FADES);
            list[at + 1] = was;
        }
    }
}

/* ---- refusals */

static void test_refused_lists(void) {
    static const uint32_t MOST = UINT32_MAX;
    const struct {
        uint32_t fades[4];
        size_t len;
    } WRONG[] = {
        {{7567, 2}, 2},    {{7568, 1}, 2},       {{0, 7569}, 2},    {{MOST, 1}, 2},
        {{MOST, MOST}, 2}, {{1, MOST}, 2},       {{5, 0}, 2},       {{0, 0}, 2},
        {{3, 2, 4, 1}, 4}, {{5, 1, 3, 1}, 4},    {{5, 1, 5, 1}, 4}, {{5}, 1},
        {{5, 1, 7}, 3},    {{0, 7568, 0, 1}, 4}, {{0, 1, 1, 0}, 4}, {{0, 7568, 7568, 1}, 4},
    };
    uint8_t header[MAHYREI_HEADER_BYTES];
    struct run run = THREE;
    for (size_t i = 0; i < sizeof WRONG / sizeof WRONG[0]; i++) {
        pack_header(&THREE, header);
        CHECK(call(header, sizeof header, WRONG[i].fades, WRONG[i].len, 3) == MAHYREI_BAD_FADES);
        for (size_t len = 0; len < 6; len++) { /* 8 comes first */
            CHECK(len == 3 || call(header, sizeof header, WRONG[i].fades, WRONG[i].len, len) ==
                                  MAHYREI_BAD_LENGTH);
        }
        run.copies = 5;
        pack_header(&run, header);
        CHECK(call(header, sizeof header, WRONG[i].fades, WRONG[i].len, 0) == MAHYREI_BAD_COPIES);
    }
}

static void test_refused_headers(void) {
    static const struct {
        struct run run;
        unsigned number;
    } WRONG[] = {
        {{3, 15, 0, 0, 0, 0, 0, 5}, 2},        {{0, 1, 0, 0, 0, 0, 0, 5}, 3},
        {{0, 9, 0, 0, 0, 0, 0, 1}, 3},         {{0, 2, 0, 1, 0, 0, 0, 5}, 4},
        {{0, 2, 1, 257, 0, 0, 0, 1}, 4},       {{0, 8, 10, 20, 0, 0, 0, 5}, 5},
        {{0, 8, 10, 21, 0, 0, 1, 1}, 6},       {{0, 8, 10, 21, 2048, 0, 65, 5}, 6},
        {{0, 8, 10, 21, 2048, 0, 64, 5}, 7},   {{0, 8, 10, 21, 2048, 33, 64, 1}, 7},
        {{0, 8, 10, 21, 2048, 32, 64, 0}, 20}, {{0, 8, 10, 21, 2048, 32, 64, 63}, 20},
    };
    uint8_t header[MAHYREI_HEADER_BYTES + 1] = {0};
    const uint32_t half[] = {9};
    for (size_t i = 0; i < sizeof WRONG / sizeof WRONG[0]; i++) {
        pack_header(&WRONG[i].run, header);
        CHECK(call(header, MAHYREI_HEADER_BYTES, NULL, 0, 210) == WRONG[i].number);
        CHECK(call(header, MAHYREI_HEADER_BYTES, half, 1, 0) == WRONG[i].number);
        CHECK(mahyrei_fades_count(header, MAHYREI_HEADER_BYTES, NULL, 0, NULL, 0) ==
              WRONG[i].number);
    }
    pack_header(&THREE, header);
    for (size_t len = 0; len <= sizeof header; len++) {
        CHECK(call(header, len, NULL, 0, 3) ==
              (len == MAHYREI_HEADER_BYTES ? MAHYREI_ACCEPTED : MAHYREI_BAD_HEADER));
    }
    for (size_t bit = 54; bit < 80; bit++) {
        pack_header(&THREE, header);
        flip(header, bit);
        CHECK(call(header, MAHYREI_HEADER_BYTES, half, 1, 3) == MAHYREI_BAD_HEADER);
    }
    CHECK(mahyrei_fades_count(NULL, 0, NULL, 0, NULL, 0) == MAHYREI_BAD_HEADER);
    pack_header(&THREE, header);
    CHECK(mahyrei_fades_count(header, MAHYREI_HEADER_BYTES, NULL, 0, NULL, 0) ==
          MAHYREI_BAD_LENGTH);
}

static void test_every_number_met(void) {
    unsigned long total = 0, expected = 0;
    for (size_t number = 0; number < 256; number++) {
        const bool can = number <= 8 || number == 20 || number == 22;
        total += met[number];
        expected += can ? met[number] : 0;
        CHECK(!can || met[number] > 0);
    }
    CHECK(total == expected);
    printf("fades_calls: %lu calls, %lu checks, %lu failed\n", total, checks, failures);
}

int main(void) {
    map_area(&lent_header);
    map_area(&lent_fades);
    map_area(&lent_counts);
    test_known();
    for (size_t i = 0; i < sizeof RUNS / sizeof RUNS[0]; i++) {
        test_lists(&RUNS[i]);
    }
    test_refused_lists();
    test_refused_headers();
    test_every_number_met();
    return failures == 0 ? EXIT_SUCCESS : EXIT_FAILURE;
}
