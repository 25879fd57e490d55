/*
 * What the benches have in common: a clock, bytes that look like chance, and a way to stop.
 */
#ifndef TIMING_H
#define TIMING_H

#include <stddef.h>
#include <stdint.h>
#include <stdio.h>
#include <stdlib.h>
#include <time.h>

/* Nothing is timed that is not right. */
static inline void require(int right, const char *what) {
    if (!right) {
        fprintf(stderr, "bench: %s\n", what);
        exit(1);
    }
}

/* Microseconds. */
static inline double now(void) {
    struct timespec t;
    clock_gettime(CLOCK_MONOTONIC, &t);
    return (double)t.tv_sec * 1e6 + (double)t.tv_nsec / 1e3;
}

/* Microseconds of processor time, which other work on the machine hardly changes. */
static inline double processor_now(void) {
    struct timespec t;
    clock_gettime(CLOCK_PROCESS_CPUTIME_ID, &t);
    return (double)t.tv_sec * 1e6 + (double)t.tv_nsec / 1e3;
}

/* The same bytes in every run of a bench. */
static inline void fill(uint8_t *bytes, size_t len) {
    static uint64_t state = 1;
    for (size_t i = 0; i < len; i++) {
        state = state * UINT64_C(6364136223846793005) + UINT64_C(1442695040888963407);
        bytes[i] = (uint8_t)(state >> 56);
    }
}

#endif
