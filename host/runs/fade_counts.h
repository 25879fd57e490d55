/* Fades over a run, as the library counts them. */
#ifndef RUNS_FADE_COUNTS_H
#define RUNS_FADE_COUNTS_H

#include <stdint.h>

#include "runs/fade_list.h"
#include "runs/sheet.h"

/* What the library counted. */
struct reckoning {
    const char *name; /* of the list */
    struct sheet run;
    struct fade_list list;
    uint32_t *counts; /* by word */
};

/* The word with the most hits, the first of several. */
uint64_t worst_word(const uint32_t *counts, uint64_t words);

#endif
