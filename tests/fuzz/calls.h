/*
 * The fuzz target over all calls, as libFuzzer knows it, and what it counts.
 */
#ifndef CALLS_H
#define CALLS_H

#include <stddef.h>
#include <stdint.h>

/* Those that are lent a header of ten bytes beside other slices come last. */
enum call {
    WORD_WRITE,
    WORD_READ,
    PASS_WRITE,
    PASS_READ,
    BIT_SPREAD,
    UPLINK_WRITE,
    UPLINK_READ,
    HEADER_WIDEN,
    HEADER_NARROW,
    RUN_WRITE,
    RUN_READ,
    RUN_FIND,
    RUN_FIND_FROM,
    RUN_CUT,
    FADES_COUNT,
    DELAY_WRITE,
    DELAY_READ,
    RACK_LOAD,
    RACK_READ,
    RACK_DROP,
    RACK_LEND,
    CALLS
};

enum { NUMBERS = 30 };

/* tests/fuzz/run reads these as 64-bit numbers in this order. */
struct counts {
    uint64_t inputs;
    struct {
        uint64_t answers[NUMBERS];
        uint64_t lent;    /* bytes of lent slices, all of them compared after the call */
        uint64_t changed; /* lent bytes that a refused call changed */
    } call[CALLS];
};

/* In the file that FUZZ_COUNTS names, where it is set, so that a crash loses none. */
extern struct counts *counts;

int LLVMFuzzerInitialize(int *argc, char ***argv);
int LLVMFuzzerTestOneInput(const uint8_t *data, size_t size);

#endif
