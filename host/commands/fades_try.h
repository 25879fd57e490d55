/* Rows and steps tried against fades. */
#ifndef COMMANDS_FADES_TRY_H
#define COMMANDS_FADES_TRY_H

#include <stdbool.h>
#include <stdio.h>

#include "runs/fade_counts.h"

/* Other rows and steps: all that there can be, or these. */
enum tried { BEST_PAIRS, ALL_PAIRS, GIVEN_PAIRS };

struct pair {
    uint64_t N, B;
    bool own; /* those of the header that was given */
};

/* Pairs as they are given, N:B with commas between them; what is wrong has been said. */
struct pairs {
    enum tried tried;
    size_t count;
    struct pair *at;
};

/* Takes the word of --pairs, NULL where there is none. Free them in any case. */
bool pairs_take(const char *word, struct pairs *pairs);
void pairs_free(struct pairs *pairs);

/* Prints what the library counts for each pair. False where it cannot be asked, which has been
 * said. */
bool print_tried(FILE *to, const struct reckoning *reckoning, const struct pairs *pairs);

#endif
