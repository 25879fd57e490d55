/*
 * The delay calls beside a ring buffer in plain C, which takes N and B and asks nothing:
 * nanoseconds a step, on the same symbols, in one run. The two take turns, and the best turn of
 * each counts, so a busy machine harms both alike and little.
 */
#define _POSIX_C_SOURCE 199309L /* clock_gettime */
#include <string.h>

#include "mahyrei.h"
#include "reference.h"
#include "timing.h"

enum {
    ROOM = MAHYREI_DELAY_BYTES_MAX,
    STEPS = 200000, /* of a turn */
    TURNS = 40,
    WARM_UP = 3
};

/* Both have m 8. */
static const struct line {
    size_t N, B;
    uint8_t header[MAHYREI_HEADER_BYTES];
} LINES[] = {
    {6, 63, {0x60, 0x18, 0x7E, 0x70, 0x81, 0x03, 0x04, 0, 0, 0}},
    {127, 255, {0x61, 0xFD, 0xFE, 0x70, 0x81, 0x03, 0x04, 0, 0, 0}},
};

typedef uint64_t call_type(const uint8_t *header, size_t header_len, uint64_t step, uint64_t symbol,
                           uint8_t *area, size_t area_len);

/* One side is the library, the other the ring. */
enum { LIBRARY, RING, SIDES };
static uint8_t symbols[STEPS], given[SIDES][STEPS], areas[SIDES][ROOM];

static size_t area_bytes(const struct line *line) {
    return line->B * line->N * (line->N - 1) / 2;
}

static void step_library(bool reading, const struct line *line, uint64_t from) {
    call_type *const call = reading ? mahyrei_delay_read : mahyrei_delay_write;
    unsigned numbers = 0;
    for (size_t i = 0; i < STEPS; i++) {
        const uint64_t answer = call(line->header, sizeof line->header, from + i, symbols[i],
                                     areas[LIBRARY], area_bytes(line));
        numbers |= mahyrei_answer_number(answer);
        given[LIBRARY][i] = (uint8_t)mahyrei_delay_symbol(answer);
    }
    require(numbers == MAHYREI_ACCEPTED, "a step was refused");
}

static void step_ring(bool reading, const struct line *line, uint64_t from) {
    for (size_t i = 0; i < STEPS; i++) {
        given[RING][i] =
            reference_delay_step(reading, line->N, line->B, from + i, symbols[i], areas[RING]);
    }
}

/* Nanoseconds a step over one turn. */
static double once(int side, bool reading, const struct line *line, uint64_t from) {
    const double start = now();
    (side == LIBRARY ? step_library : step_ring)(reading, line, from);
    return (now() - start) * 1e3 / STEPS;
}

/* A line that runs on through all turns. */
static void row(bool reading, const struct line *line) {
    double best[SIDES] = {1e9, 1e9};
    uint64_t from = 0;
    memset(areas, 0, sizeof areas);
    for (int turn = -WARM_UP; turn < TURNS; turn++, from += STEPS) {
        fill(symbols, sizeof symbols);
        for (int side = 0; side < SIDES; side++) {
            const double took = once(side, reading, line, from);
            best[side] = turn >= 0 && took < best[side] ? took : best[side];
        }
        require(memcmp(given[LIBRARY], given[RING], STEPS) == 0, "other symbols are given");
    }
    require(memcmp(areas[LIBRARY], areas[RING], ROOM) == 0, "other bytes are kept");
    printf("%-19s %4zu %4zu %9zu %9.1f %9.1f\n",
           reading ? "mahyrei_delay_read" : "mahyrei_delay_write", line->N, line->B,
           area_bytes(line), best[LIBRARY], best[RING]);
}

int main(void) {
    printf("nanoseconds a step, the best turn of each\n");
    printf("%-19s %4s %4s %9s %9s %9s\n", "call", "N", "B", "bytes", "library", "ring");
    for (size_t i = 0; i < sizeof LINES / sizeof LINES[0]; i++) {
        row(false, &LINES[i]);
        row(true, &LINES[i]);
    }
    return 0;
}
