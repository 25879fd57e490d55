/*
 * mahyrei_run_find over captures in which the marker never comes, at two lengths each: nanoseconds
 * a byte, how much longer twice the bytes take, and how much longer than memcpy of them. And
 * mahyrei_run_cut beside memcpy of the same bytes.
 *
 * A call over so many bytes does not end before others have had their turn on a busy machine. So it
 * is the processor's time that counts, and the best turn of each.
 */
#define _POSIX_C_SOURCE 199309L /* clock_gettime */
#include <stdio.h>
#include <stdlib.h>
#include <string.h>
#include <time.h>

#include "mahyrei.h"
#include "runs.h"

enum { TURNS = 5, MARKER_LEN = 32 };
enum { EMPTY_BYTES = 256 << 20, PULSES_BYTES = 4 << 20, WORST_BYTES = 32 << 20 };
enum { ANY_BYTES = 16 << 20 };

/* The largest run there is. */
static const struct run LARGEST = {
    .rate = 0, .m = 8, .N = 127, .B = 255, .F = 2048, .W = 32, .A = 64, .copies = 1};

static uint8_t header[MAHYREI_HEADER_BYTES];

static void require(int right, const char *what) {
    if (!right) {
        fprintf(stderr, "bench: %s\n", what);
        exit(1);
    }
}

static uint8_t *room(size_t len) {
    uint8_t *const bytes = malloc(len);
    require(bytes != NULL, "no memory");
    memset(bytes, 0xFF, len); /* so that each page is one of its own */
    return bytes;
}

static double now(void) { /* in nanoseconds */
    struct timespec t;
    clock_gettime(CLOCK_PROCESS_CPUTIME_ID, &t);
    return (double)t.tv_sec * 1e9 + (double)t.tv_nsec;
}

/* ---- mahyrei_run_find */

static double search(const uint8_t *marker, const uint8_t *capture, size_t len) {
    double best = 0;
    for (int turn = 0; turn < TURNS; turn++) {
        const double start = now();
        const uint64_t answer =
            mahyrei_run_find(header, sizeof header, marker, MARKER_LEN, capture, len);
        const double took = now() - start;
        require(answer == MAHYREI_NO_MARKER, "a marker where there is none");
        best = turn == 0 || took < best ? took : best;
    }
    return best;
}

static double copy(uint8_t *to, const uint8_t *from, size_t len) {
    double best = 0;
    for (int turn = 0; turn < TURNS; turn++) {
        const double start = now();
        memcpy(to, from, len);
        __asm__ volatile("" : : "r"(to) : "memory"); /* the bytes are wanted */
        const double took = now() - start;
        best = turn == 0 || took < best ? took : best;
    }
    return best;
}

static uint8_t *copied; /* where memcpy puts the capture */

static void row(const char *name, const uint8_t *marker, const uint8_t *capture, size_t len) {
    const size_t middle = len / 2;
    const double half = search(marker, capture, middle), whole = search(marker, capture, len);
    const double memory = copy(copied, capture, len);
    printf("%-34s %10zu %9.3f %9.3f %8.2f %9.3f %8.2f\n", name, len, half / (double)middle,
           whole / (double)len, whole / half, memory / (double)len, whole / memory);
}

/* A run of 2^m slots of data a symbol, searched for another marker under its header. */
static void run_row(const char *name, uint64_t m, const uint8_t *frames, uint8_t *capture) {
    const struct run run = {
        .rate = 1, .m = m, .N = 36, .B = 60, .F = 2048, .W = MARKER_LEN, .A = 64, .copies = 1};
    uint8_t marker[MARKER_LEN], other[MARKER_LEN];
    for (size_t i = 0; i < MARKER_LEN; i++) {
        marker[i] = (uint8_t)((i * i / 3 + 1) % pulse_order(&run));
        other[i] = (uint8_t)((i * i / 5 + i / 2 + 2) % pulse_order(&run));
    }
    pack_header(&run, header);
    require(mahyrei_run_write(header, sizeof header, marker, MARKER_LEN, frames,
                              MAHYREI_FRAMES_BYTES_MAX, capture,
                              slot_bytes(&run)) == MAHYREI_ACCEPTED,
            "a run is refused");
    row(name, other, capture, slot_bytes(&run));
    pack_header(&LARGEST, header);
}

/* ---- mahyrei_run_cut */

static double cut(uint64_t slot, uint8_t *slots, const uint8_t *capture, size_t len) {
    double best = 0;
    for (int turn = 0; turn < TURNS; turn++) {
        const double start = now();
        require(mahyrei_run_cut(header, sizeof header, capture, len, slot, slots,
                                slot_bytes(&LARGEST)) == MAHYREI_ACCEPTED,
                "a run cannot be cut out");
        const double took = now() - start;
        best = turn == 0 || took < best ? took : best;
    }
    return best;
}

/* The run from this slot of the capture on. */
static void put_run(const uint8_t *run, size_t slot, uint8_t *capture) {
    const size_t first = slot / 8, shift = slot % 8;
    memset(capture, 0, first + slot_bytes(&LARGEST) + 1);
    for (size_t i = 0; i < slot_bytes(&LARGEST); i++) {
        capture[first + i] = (uint8_t)(capture[first + i] | run[i] >> shift);
        capture[first + i + 1] = (uint8_t)(run[i] << (8 - shift));
    }
}

static void cut_row(const uint8_t *run, size_t slot, uint8_t *slots, uint8_t *capture) {
    const size_t len = slot_bytes(&LARGEST);
    put_run(run, slot, capture);
    const double took = cut(slot, slots, capture, EMPTY_BYTES);
    require(memcmp(slots, run, len) == 0, "another run is cut out");
    const double memory = copy(slots, run, len);
    printf("%-34zu %10zu %9.0f %9.0f %8.2f\n", slot, len, took / 1e3, memory / 1e3, took / memory);
}

int main(void) {
    static uint8_t frames[MAHYREI_FRAMES_BYTES_MAX];
    uint8_t marker[MARKER_LEN], other[MARKER_LEN], worst[MARKER_LEN] = {0};
    const size_t len = slot_bytes(&LARGEST);
    uint8_t *const capture = room(EMPTY_BYTES), *const run = room(len), *const slots = room(len);
    copied = room(EMPTY_BYTES);
    worst[MARKER_LEN - 1] = 1;
    for (size_t i = 0; i < MARKER_LEN; i++) {
        marker[i] = (uint8_t)(7 * i + 3);
        other[i] = (uint8_t)(11 * i + 90);
    }
    for (size_t i = 0; i < sizeof frames; i++) {
        frames[i] = (uint8_t)(i * i >> 5);
    }
    pack_header(&LARGEST, header);
    require(mahyrei_run_write(header, sizeof header, marker, MARKER_LEN, frames, sizeof frames, run,
                              len) == MAHYREI_ACCEPTED,
            "the run is refused");
    printf("mahyrei_run_find, the marker never comes: nanoseconds a byte, of half the bytes and of "
           "all\n");
    printf("%-34s %10s %9s %9s %8s %9s %8s\n", "capture", "bytes", "half", "all", "all/half",
           "memcpy", "quotient");
    row("pulses alone", other, capture, PULSES_BYTES);
    uint64_t any = 1;
    for (size_t i = 0; i < ANY_BYTES; i++) {
        any = any * 6364136223846793005U + 1442695040888963407U;
        capture[i] = (uint8_t)(any >> 56);
    }
    row("any slots", other, capture, ANY_BYTES);
    run_row("a run, 4 slots of data a symbol", 2, frames, capture);
    run_row("a run, 16 slots of data a symbol", 4, frames, capture);
    run_row("a run, 64 slots of data a symbol", 6, frames, capture);
    memset(capture, 0, EMPTY_BYTES);
    row("no pulse", other, capture, EMPTY_BYTES);
    row("the largest run", other, run, len);
    for (size_t i = 0; i < WORST_BYTES; i += 40) { /* 320 slots */
        capture[i] = 0x80;
    }
    row("symbols 0 alone, marker 0 .. 0 1", worst, capture, WORST_BYTES);
    printf("\nmahyrei_run_cut, the largest run: microseconds\n");
    printf("%-34s %10s %9s %9s %8s\n", "from slot", "bytes", "library", "memcpy", "quotient");
    cut_row(run, 16, slots, capture);
    cut_row(run, 13, slots, capture);
    free(capture);
    free(run);
    free(slots);
    free(copied);
    return 0;
}
