/*
 * What the C tests share: checks that are counted, and random numbers, the same in every run.
 */
#ifndef CHECK_H
#define CHECK_H

#include <assert.h>
#include <inttypes.h>
#include <stdbool.h>
#include <stddef.h>
#include <stdint.h>
#include <stdio.h>

static unsigned long checks, failures;

enum { FAILURES_SHOWN = 20 }; /* the first say enough */

/* Counts a check, and says of one that failed where it is, what it checks and, where there is
 * a `name`, for which value of it. Returns whether it passed. */
static inline bool check(bool good, const char *file, int line, const char *name, uint64_t value,
                         const char *what) {
    checks++;
    if (!good && ++failures <= FAILURES_SHOWN) {
        fprintf(stderr, "%s:%d: ", file, line);
        if (name != NULL) {
            fprintf(stderr, "%s %" PRIu64 ": ", name, value);
        }
        fprintf(stderr, "%s\n", what);
    }
    return good;
}

/* A condition that has to hold; CHECK_FOR also tells the value of what it was tried with. */
#define CHECK(condition) ((void)check((condition), __FILE__, __LINE__, NULL, 0, #condition))
#define CHECK_FOR(value, condition)                                                                \
    ((void)check((condition), __FILE__, __LINE__, #value, (value), #condition))

/* Any 64 bits, by xorshift64*. */
static inline uint64_t random_number(void) {
    static uint64_t state = UINT64_C(0x9E3779B97F4A7C15);
    state ^= state >> 12;
    state ^= state << 25;
    state ^= state >> 27;
    return state * UINT64_C(0x2545F4914F6CDD1D);
}

static inline size_t random_below(size_t limit) {
    assert(limit > 0);
    return (size_t)((random_number() >> 16) % limit);
}

static inline void fill_random(uint8_t *bytes, size_t len) {
    for (size_t i = 0; i < len; i++) {
        bytes[i] = (uint8_t)(random_number() >> 56);
    }
}

#endif
