/* Rows and steps tried against fades: the worst word of each pair that passes question 5. */
#include "commands/fades_try.h"

#include <errno.h>
#include <inttypes.h>
#include <stdlib.h>
#include <string.h>

#include "formats/numbers.h"
#include "library/library.h"
#include "report/messages.h"

/* ---- pairs */

static bool add_pair(struct pairs *pairs, struct pair pair) {
    struct pair *const grown = realloc(pairs->at, (pairs->count + 1) * sizeof *grown);
    if (grown == NULL) {
        complain("memory", ENOMEM);
        return false;
    }
    pairs->at = grown;
    grown[pairs->count++] = pair;
    return true;
}

/* One pair, up to its end. */
static bool take_pair(const char *word, size_t len, struct pair *pair) {
    char text[48];
    if (len >= sizeof text) {
        return false;
    }
    memcpy(text, word, len);
    text[len] = '\0';
    char *const colon = strchr(text, ':');
    if (colon == NULL) {
        return false;
    }
    *colon = '\0';
    *pair = (struct pair){0};
    return read_number(text, &pair->N) && read_number(colon + 1, &pair->B);
}

bool pairs_take(const char *word, struct pairs *pairs) {
    *pairs = (struct pairs){.tried = BEST_PAIRS};
    if (word == NULL) {
        return true;
    }
    pairs->tried = strcmp(word, "all") == 0 ? ALL_PAIRS : GIVEN_PAIRS;
    for (bool more = pairs->tried == GIVEN_PAIRS; more;) {
        const size_t len = strcspn(word, ",");
        struct pair pair;
        if (!take_pair(word, len, &pair)) {
            complain_text("--pairs", "pairs of numbers such as 21:36,36:180, or all");
            return false;
        }
        if (!add_pair(pairs, pair)) {
            return false;
        }
        more = word[len] == ',';
        word += len + more;
    }
    return true;
}

void pairs_free(struct pairs *pairs) {
    free(pairs->at);
    *pairs = (struct pairs){0};
}

static bool passes(const struct mahyrei_fields *fields, const struct pair *pair) {
    struct mahyrei_fields other = *fields;
    other.N = pair->N;
    other.B = pair->B;
    return mahyrei_fields_check(&other, NULL) == MAHYREI_ACCEPTED;
}

/* All that the questions let through; one row is the same with every step. */
static bool fill_pairs(const struct mahyrei_fields *fields, struct pairs *pairs) {
    for (uint64_t N = 1; N <= 128; N++) {
        for (uint64_t B = 1; B <= (N == 1 ? 1 : 256); B++) {
            const struct pair pair = {N, B, false};
            const bool own = N == fields->N && B == fields->B;
            if (!own && passes(fields, &pair) && !add_pair(pairs, pair)) {
                return false;
            }
        }
    }
    return add_pair(pairs, (struct pair){fields->N, fields->B, true});
}

/* ---- trying */

/* What the library says of a pair. */
struct trial {
    struct pair pair;
    uint64_t answer; /* or the number of the plain functions, where they make no header */
    uint8_t header[MAHYREI_HEADER_BYTES];
    uint64_t symbols, word;
    uint32_t hits; /* of the worst word */
};

static bool try_pair(const struct reckoning *reckoning, uint32_t *counts, struct trial *trial) {
    const uint64_t words = reckoning->run.sizes.C;
    struct mahyrei_fields fields = reckoning->run.fields;
    struct mahyrei_sizes sizes;
    fields.N = trial->pair.N;
    fields.B = trial->pair.B;
    trial->answer = mahyrei_header_make(&fields, trial->header, NULL);
    if (trial->answer != MAHYREI_ACCEPTED) {
        return true;
    }
    mahyrei_sizes(trial->header, sizeof trial->header, &sizes);
    const struct reckoned reckoned = {{trial->header, sizeof trial->header},
                                      reckoning->list.numbers,
                                      2 * reckoning->list.count,
                                      counts,
                                      words};
    if (!library_fades(&reckoned, &trial->answer)) {
        return false;
    }
    if (trial->answer == MAHYREI_ACCEPTED) {
        trial->symbols = sizes.pooled;
        trial->word = worst_word(counts, words);
        trial->hits = counts[trial->word];
    }
    return true;
}

/* Shorter runs first; those that were not counted come last. */
static int compare_trials(const void *a, const void *b) {
    const struct trial *const one = a, *const other = b;
    const bool refused[] = {one->answer != MAHYREI_ACCEPTED, other->answer != MAHYREI_ACCEPTED};
    if (refused[0] != refused[1]) {
        return refused[0] ? 1 : -1;
    }
    if (one->symbols != other->symbols) {
        return one->symbols < other->symbols ? -1 : 1;
    }
    if (one->hits != other->hits) {
        return one->hits < other->hits ? -1 : 1;
    }
    return one->pair.N != other->pair.N  ? (one->pair.N < other->pair.N ? -1 : 1)
           : one->pair.B < other->pair.B ? -1
                                         : one->pair.B > other->pair.B;
}

static bool try_all(const struct reckoning *reckoning, const struct pairs *pairs,
                    struct trial *trials) {
    struct bytes counts;
    if (trials == NULL) {
        complain("memory", ENOMEM);
        return false;
    }
    bool good = make_buffer(reckoning->run.sizes.C * sizeof(uint32_t), &counts);
    for (size_t i = 0; good && i < pairs->count; i++) {
        trials[i] = (struct trial){.pair = pairs->at[i]};
        good = try_pair(reckoning, (uint32_t *)(void *)counts.at, &trials[i]);
    }
    free(counts.at);
    if (good) {
        qsort(trials, pairs->count, sizeof *trials, compare_trials);
    }
    return good;
}

/* ---- the list */

static void print_trial(FILE *to, const struct trial *trial) {
    fprintf(to, "%c %5" PRIu64 " %5" PRIu64, trial->pair.own ? '*' : ' ', trial->pair.N,
            trial->pair.B);
    if (trial->answer != MAHYREI_ACCEPTED) {
        fprintf(to, "  no %u\n", mahyrei_answer_number(trial->answer));
        return;
    }
    fprintf(to, " %9" PRIu64 " %7" PRIu32, trial->symbols, trial->hits);
    if (trial->hits == 0) {
        fputs("      -  ", to);
    } else {
        fprintf(to, " %6" PRIu64 "  ", trial->word);
    }
    for (size_t i = 0; i < sizeof trial->header; i++) {
        fprintf(to, "%02X", trial->header[i]);
    }
    fputc('\n', to);
}

/* What was tried, and how many runs end before the last fade does. */
static void print_summary(FILE *to, const struct reckoning *reckoning, enum tried tried,
                          const struct trial *trials, size_t count) {
    size_t ended = 0;
    for (size_t i = 0; i < count; i++) {
        ended += trials[i].answer == MAHYREI_BAD_FADES;
    }
    fprintf(to,
            "%zu pair%s of N and B tried: %" PRIu64 " word%s of %" PRIu64
            " symbols, %zu fade%s over %" PRIu64 " symbols\n",
            count, count == 1 ? "" : "s", reckoning->run.sizes.C,
            reckoning->run.sizes.C == 1 ? "" : "s", reckoning->run.sizes.S, reckoning->list.count,
            reckoning->list.count == 1 ? "" : "s", fade_symbols(&reckoning->list));
    if (ended > 0) {
        fprintf(to, "no %d: the run of %zu of them ends before the last fade%s\n",
                MAHYREI_BAD_FADES, ended, tried == GIVEN_PAIRS ? "" : ", and they are left out");
    }
    if (tried == BEST_PAIRS) {
        fputs("those that no shorter run beats, and the header's own *\n", to);
    }
    fputs("      N     B   symbols   worst   word  header\n", to);
}

static void print_trials(FILE *to, enum tried tried, const struct trial *trials, size_t count) {
    uint64_t fewest = UINT64_MAX;
    for (size_t i = 0; i < count; i++) {
        const bool counted = trials[i].answer == MAHYREI_ACCEPTED;
        const bool better = counted && trials[i].hits < fewest;
        fewest = better ? trials[i].hits : fewest;
        if (tried == GIVEN_PAIRS || (tried == ALL_PAIRS && counted) || better ||
            (counted && trials[i].pair.own)) {
            print_trial(to, &trials[i]);
        }
    }
}

bool print_tried(FILE *to, const struct reckoning *reckoning, const struct pairs *pairs) {
    struct pairs all = {.tried = pairs->tried};
    bool good = pairs->tried == GIVEN_PAIRS || fill_pairs(&reckoning->run.fields, &all);
    const struct pairs *const tried = pairs->tried == GIVEN_PAIRS ? pairs : &all;
    struct trial *const trials = good ? calloc(tried->count, sizeof *trials) : NULL;
    good = good && try_all(reckoning, tried, trials);
    if (good) {
        print_summary(to, reckoning, tried->tried, trials, tried->count);
        print_trials(to, tried->tried, trials, tried->count);
    }
    free(trials);
    pairs_free(&all);
    return good;
}
