/*
 * What is where in a run, by the specification's steps 9 and 10. Plain C, to count, to show and
 * to say with: no answer about a run rests on it.
 */
#ifndef RUNS_LAYOUT_H
#define RUNS_LAYOUT_H

#include "runs/sheet.h"

/* What a symbol is there for. */
enum part { MARKER_PART, WORD_PART, IDLE_PART };

/* Where a symbol of the run, markers counted, belongs. */
struct position {
    enum part part;
    uint64_t row;  /* of S symbols and the marker before them */
    uint64_t word; /* of a word's symbol */
    uint64_t at;   /* in the marker, in the word, or else in the row */
};

struct position position_of(const struct sheet *run, uint64_t symbol);

/* The way back: the symbol of the run at which this symbol of a word is. */
uint64_t symbol_of(const struct sheet *run, uint64_t word, uint64_t at);

/* Bits of a frame with its marker, in step 1. */
uint64_t marked_bits(const struct sheet *run);

#endif
