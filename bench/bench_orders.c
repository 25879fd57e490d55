/*
 * Slots a second of the run calls at every pulse order and factor, with one row and with 36:
 * written, read as they were written, and read with copies that have their pulse elsewhere, in
 * every tenth symbol and in every one. A slot of half a nanosecond is 2.0 here.
 *
 * The calls of a row take turns, and the best turn of each counts, in processor time.
 */
#define _POSIX_C_SOURCE 199309L /* clock_gettime */
#include <string.h>

#include "mahyrei.h"
#include "runs.h"
#include "timing.h"

/* Turns of a row last about this long in all, in microseconds, but there are at least so many. */
static const double LONG_ENOUGH = 2e5;
enum { TURNS_LEAST = 3, TURNS_MOST = 500, MARKER = 8 };

/* Which symbols have a stray copy: none, every tenth, every one. */
enum { STRAYS = 3 };
static const size_t STRAY_EACH[STRAYS] = {0, 10, 1};

/* A run of each of the two shapes: written once, and read in three states. */
struct bench {
    struct run run;
    uint8_t header[MAHYREI_HEADER_BYTES], marker[MARKER];
    uint8_t *frames, *slots[STRAYS], *out;
};

static uint64_t write_run(struct bench *b, size_t unused) {
    (void)unused;
    return mahyrei_run_write(b->header, sizeof b->header, b->marker, MARKER, b->frames,
                             frame_bytes(&b->run), b->out, slot_bytes(&b->run));
}

static uint64_t read_run(struct bench *b, size_t strays) {
    return mahyrei_run_read(b->header, sizeof b->header, b->marker, MARKER, b->slots[strays],
                            slot_bytes(&b->run), b->frames, frame_bytes(&b->run));
}

static void *bytes(size_t len) {
    void *room = malloc(len);
    require(room != NULL, "no memory");
    return room;
}

/* One copy of a symbol loses its pulse and has another one, among its data slots. */
static void stray(const struct run *run, uint8_t *slots, size_t symbol) {
    uint8_t chance[2];
    fill(chance, sizeof chance);
    const size_t start = copy_start(run, symbol, chance[0] % run->copies);
    size_t pulse = 0;
    while (get_bit(slots, start + pulse) == 0) {
        pulse++;
    }
    flip(slots, start + pulse);
    flip(slots, start + (pulse + 1 + chance[1] % (pulse_order(run) - 1)) % pulse_order(run));
}

/* With fewer than three copies a stray one leaves no symbol to be told. */
static bool has_strays(const struct run *run) {
    return run->copies >= 3;
}

static void make(const struct run *run, struct bench *b) {
    b->run = *run;
    pack_header(run, b->header);
    for (size_t i = 0; i < MARKER; i++) {
        b->marker[i] = (uint8_t)(i % pulse_order(run));
    }
    b->frames = bytes(frame_bytes(run));
    fill(b->frames, frame_bytes(run));
    b->out = bytes(slot_bytes(run));
    require(write_run(b, 0) == 0, "a run is refused");
    for (size_t k = 0; k < STRAYS; k++) {
        b->slots[k] = bytes(slot_bytes(run));
        memcpy(b->slots[k], b->out, slot_bytes(run));
        for (size_t s = 0; STRAY_EACH[k] > 0 && has_strays(run) && s < symbol_count(run);
             s += STRAY_EACH[k]) {
            stray(run, b->slots[k], s);
        }
    }
}

static void drop(struct bench *b) {
    free(b->frames);
    free(b->out);
    for (size_t k = 0; k < STRAYS; k++) {
        free(b->slots[k]);
    }
}

typedef uint64_t timed(struct bench *b, size_t strays);
struct column {
    timed *call;
    size_t strays;
};
static const struct column COLUMNS[] = {
    {write_run, 0}, {read_run, 0}, {read_run, 1}, {read_run, 2}};
enum { COLUMN_COUNT = sizeof COLUMNS / sizeof COLUMNS[0] };

/* 10^9 slots a second. */
static void measure(struct bench *b, double rates[COLUMN_COUNT]) {
    double best[COLUMN_COUNT] = {0}, spent = 0;
    for (int turn = 0; turn < TURNS_LEAST || (spent < LONG_ENOUGH && turn < TURNS_MOST); turn++) {
        for (size_t i = 0; i < COLUMN_COUNT; i++) {
            const double start = processor_now();
            require(COLUMNS[i].call(b, COLUMNS[i].strays) == 0, "a call refuses");
            const double took = processor_now() - start;
            best[i] = turn == 0 || took < best[i] ? took : best[i];
            spent += took;
        }
    }
    for (size_t i = 0; i < COLUMN_COUNT; i++) {
        rates[i] = (double)slot_count(&b->run) / best[i] / 1e3;
    }
}

static void row(size_t m, size_t copies) {
    double rates[2][COLUMN_COUNT];
    const size_t frames = m < 6 && copies < 8 ? 12 : 4;
    for (size_t shape = 0; shape < 2; shape++) {
        const struct run run = {
            1, m, shape == 0 ? 1 : 36, shape == 0 ? 1 : 60, 2048, MARKER, frames, copies};
        struct bench b = {0};
        make(&run, &b);
        measure(&b, rates[shape]);
        drop(&b);
    }
    printf("%5zu %6zu", m, copies);
    for (size_t i = 0; i < COLUMN_COUNT; i++) {
        for (size_t shape = 0; shape < 2; shape++) {
            if (COLUMNS[i].strays > 0 && copies < 3) {
                printf(" %8s", "-");
            } else {
                printf(" %8.2f", rates[shape][i]);
            }
        }
    }
    putchar('\n');
    fflush(stdout);
}

int main(void) {
    static const size_t FACTORS[] = {1, 2, 3, 4, 8, 32};
    printf("10^9 slots a second, rate 1/2, with one row and with 36\n");
    printf("%5s %6s %17s %17s %17s %17s\n", "m", "factor", "written", "read", "a stray in ten",
           "a stray in each");
    for (size_t f = 0; f < sizeof FACTORS / sizeof FACTORS[0]; f++) {
        for (size_t m = 2; m <= 8; m++) {
            row(m, FACTORS[f]);
        }
    }
    return 0;
}
