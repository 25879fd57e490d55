/*
 * mahyrei_fades_count over the run with the most symbols and over the one with the most slots, for
 * lists from no fade to one on every second symbol: microseconds, nanoseconds a symbol, and the
 * time beside that of no fade. The time must not grow with the number of fades, except for the
 * symbols that they cover.
 *
 * Library and plain C take turns, and the best turn of each counts.
 */
#define _POSIX_C_SOURCE 199309L /* clock_gettime */
#include <string.h>

#include "mahyrei.h"
#include "reference.h"
#include "runs.h"
#include "timing.h"

enum { TURNS = 7, COUNTS_MOST = 210 };

static const struct {
    const char *name;
    struct run run;
} RUNS[] = {
    {"most symbols", {0, 2, 126, 252, 2048, 32, 64, 1}},
    {"most slots", {0, 8, 127, 255, 2048, 32, 64, 1}},
};

/* Fades of so many symbols, one beginning every so many. */
static const struct {
    const char *name;
    size_t every, length; /* 0: as long as the run */
} LISTS[] = {
    {"no fade", 0, 0},
    {"one over all", 0, 1},
    {"one over half", 1, 0},
    {"each symbol", 1, 1},
    {"each second", 2, 1},
    {"20 of each 55", 55, 20},
    {"100 of each 200", 200, 100},
    {"10000 of each 20000", 20000, 10000},
};

static size_t make_list(size_t which, size_t symbols, uint32_t *fades) {
    const size_t every = LISTS[which].every, length = LISTS[which].length;
    size_t len = 0;
    if (every == 0 || length == 0) {
        fades[0] = 0;
        fades[1] = (uint32_t)(every == 0 ? symbols : symbols / 2);
        return every + length == 0 ? 0 : 2;
    }
    for (size_t first = 0; first + length <= symbols; first += every) {
        fades[len++] = (uint32_t)first;
        fades[len++] = (uint32_t)length;
    }
    return len;
}

typedef uint64_t counting(const uint8_t *, size_t, const uint32_t *, size_t, uint32_t *, size_t);

static double once(counting *count, const uint8_t *header, const uint32_t *fades, size_t len,
                   uint32_t *counts, size_t words) {
    const double start = now();
    require(count(header, MAHYREI_HEADER_BYTES, fades, len, counts, words) == MAHYREI_ACCEPTED,
            "a list was refused while it was timed");
    return now() - start;
}

static double row(const struct run *run, size_t which, uint32_t *fades, double none) {
    const size_t symbols = symbol_count(run), words = block_count(run);
    const size_t len = make_list(which, symbols, fades);
    uint32_t counts[COUNTS_MOST], plain[COUNTS_MOST];
    uint8_t header[MAHYREI_HEADER_BYTES];
    double best[2] = {0};
    pack_header(run, header);
    for (int turn = 0; turn < TURNS; turn++) {
        const double took[2] = {once(mahyrei_fades_count, header, fades, len, counts, words),
                                once(reference_fades_count, header, fades, len, plain, words)};
        for (int i = 0; i < 2; i++) {
            best[i] = turn == 0 || took[i] < best[i] ? took[i] : best[i];
        }
    }
    require(memcmp(counts, plain, words * sizeof *counts) == 0, "library and plain C differ");
    printf("%-20s %9zu %19.0f %9.0f %10.2f %12.2f\n", LISTS[which].name, len / 2, best[0], best[1],
           best[0] * 1e3 / (double)symbols, none == 0 ? 1.0 : best[0] / none);
    return best[0];
}

int main(void) {
    printf("mahyrei_fades_count, microseconds, the best turn of each\n");
    for (size_t i = 0; i < sizeof RUNS / sizeof RUNS[0]; i++) {
        const struct run *const run = &RUNS[i].run;
        uint32_t *const fades = malloc(2 * symbol_count(run) * sizeof *fades);
        double none = 0;
        require(fades != NULL && block_count(run) <= COUNTS_MOST, "no memory");
        printf("%-20s %9s %19s %9s %10s %12s\n", RUNS[i].name, "fades", "mahyrei_fades_count",
               "plain C", "ns/symbol", "beside none");
        for (size_t which = 0; which < sizeof LISTS / sizeof LISTS[0]; which++) {
            const double took = row(run, which, fades, none);
            none = which == 0 ? took : none;
        }
        free(fades);
    }
    return 0;
}
