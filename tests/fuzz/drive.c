/*
 * The fuzz target without libFuzzer, so that the tests can run it where there is none:
 *
 *   drive            puts random inputs and demands that each call gives each number it can;
 *   drive DIRECTORY  also keeps there, for the fuzzer to start from, the inputs that were the first
 *                    to get their number, and a word and runs as they are.
 */
#include <inttypes.h>
#include <stdbool.h>
#include <stdio.h>
#include <stdlib.h>
#include <string.h>

#include "../c/check.h"
#include "../c/runs.h"
#include "calls.h"

enum {
    /* of call and number, as calls.c has them */
    PAIRS =
        3 + 6 + 3 + 6 + 4 + 2 + 4 + 9 + 11 + 10 + 19 + 11 + 11 + 10 + 11 + 11 + 11 + 13 + 5 + 5 + 5,
    LEAST_INPUTS = 1500,
    MOST_INPUTS = 20000,
    RANDOM_LEN = 96,
    INPUT_MOST = 16384
};

static const char *directory;
static unsigned kept;

static void keep(const uint8_t *input, size_t len) {
    char name[4096];
    if (directory == NULL) {
        return;
    }
    snprintf(name, sizeof name, "%s/%03u", directory, kept++);
    FILE *const file = fopen(name, "wb");
    if (file == NULL || fwrite(input, 1, len, file) != len || fclose(file) != 0) {
        perror(name);
        exit(1);
    }
}

/* How many numbers the calls have given, each counted once for each call. */
static unsigned numbers_met(void) {
    unsigned met = 0;
    for (size_t call = 0; call < CALLS; call++) {
        for (size_t number = 0; number < NUMBERS; number++) {
            met += counts->call[call].answers[number] > 0;
        }
    }
    return met;
}

static void put_random(void) {
    uint8_t input[RANDOM_LEN];
    fill_random(input, sizeof input);
    const unsigned met = numbers_met();
    LLVMFuzzerTestOneInput(input, sizeof input);
    if (numbers_met() > met) {
        keep(input, sizeof input);
    }
}

/* An input that ends in a word or in slots as they are, which are read and accepted. */
static void put_sound(enum call call, const uint8_t *input, size_t len) {
    const uint64_t before = counts->call[call].answers[0];
    LLVMFuzzerTestOneInput(input, len);
    if (counts->call[call].answers[0] == before) {
        fprintf(stderr, "drive.c: a sound word or run was not accepted\n");
        exit(1);
    }
    keep(input, len);
}

static void put_sound_word(uint8_t rate) {
    static const uint8_t block[MAHYREI_BLOCK_BYTES_MAX];
    uint8_t input[6 + MAHYREI_WORD_BYTES] = {WORD_READ, 0, rate, 0, 0, 3};
    mahyrei_word_write(rate, block, mahyrei_word_block_bytes(rate), input + 6, MAHYREI_WORD_BYTES);
    put_sound(WORD_READ, input, sizeof input);
}

/* The bytes before the slots are those that calls.c takes: call and placement, nine for the run
 * and one for its size, its header as it is, a marker of zeros, right lengths, then the rest. */
static void put_sound_run(uint8_t rate, uint8_t m) {
    const struct run run = {rate, m, 1, 1, 100, 1, 2, 1};
    const uint8_t order = (uint8_t)(m - 2);
    const uint8_t before[] = {RUN_READ, 0, rate, order, 0, 0, 0, 99, 0, 1,
                              0,        0, 31,   0,     0, 0, 0, 0,  0, 7};
    static const uint8_t frames[200], marker[1];
    static uint8_t input[INPUT_MOST];
    uint8_t header[MAHYREI_HEADER_BYTES];
    pack_header(&run, header);
    memcpy(input, before, sizeof before);
    mahyrei_run_write(header, sizeof header, marker, sizeof marker, frames, sizeof frames,
                      input + sizeof before, slot_bytes(&run));
    put_sound(RUN_READ, input, sizeof before + slot_bytes(&run));
}

int main(int argc, char **argv) {
    directory = argc > 1 ? argv[1] : NULL;
    LLVMFuzzerInitialize(&argc, &argv);
    for (uint8_t rate = 0; rate < 3; rate++) {
        put_sound_word(rate);
        for (uint8_t m = 2; m <= 4; m++) { /* with higher m the slots are longer than an input */
            put_sound_run(rate, m);
        }
    }
    for (int i = 0; i < LEAST_INPUTS || (numbers_met() < PAIRS && i < MOST_INPUTS); i++) {
        put_random();
    }
    const unsigned met = numbers_met();
    printf("fuzz target: %" PRIu64 " inputs, %u of %d pairs of call and number met\n",
           counts->inputs, met, PAIRS);
    return met == PAIRS ? EXIT_SUCCESS : EXIT_FAILURE;
}
