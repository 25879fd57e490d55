/*
 * What is wrong in the slots of a run, all of it and not only the first. Nothing is corrected, and
 * no frame comes out. Words are judged by the library's mahyrei_word_read; the rest is counted in
 * plain C, and then held to the library's answer to the whole run.
 */
#ifndef RUNS_FINDINGS_H
#define RUNS_FINDINGS_H

#include "mahyrei.h"
#include "runs/run_slots.h"

enum { FIRST_FEW = 5 };

/* How many there are, and the first few of them. */
struct found {
    uint64_t count, first[FIRST_FEW];
};

/* How faults are named, and the question that each fails. */
struct fault_line {
    const char *name, *pooled; /* where symbols are sent once, and where copies are pooled */
    const char *label;  /* of one symbol, in at most twenty letters, which is what SigMF advises */
    char letter;        /* in the text's picture */
    const char *colour; /* in the drawn one */
    enum mahyrei_number number;
};
extern const struct fault_line FAULT_LINES[FAULTS];
const char *fault_name(const struct run_slots *slots, size_t fault);

/* For a word that has a symbol with no value: there is nothing to ask mahyrei_word_read. */
#define NOT_ASKED UINT64_MAX

enum frame_state { FRAME_RIGHT, FRAME_WRONG, FRAME_UNKNOWN };

struct findings {
    struct found symbols[FAULTS];
    struct found spare; /* set bits after the last slot, by their number in the slots */
    struct found fill;  /* set bits after the last frame, by their number in the stream */
    uint64_t *words;    /* by word: what mahyrei_word_read answers, or NOT_ASKED */
    uint8_t *blocks;    /* of the words that were accepted, each in a buffer for the largest */
    enum frame_state *frames;
};

/* False where memory is short or the library could not be called; that has been said. */
bool find_all(const struct run_slots *slots, const uint8_t *marker, struct findings *findings);
void free_findings(struct findings *findings);

/* Words with this answer's number; NOT_ASKED for those. */
uint64_t count_words(const struct run_slots *slots, const struct findings *findings,
                     uint64_t number);
uint64_t count_frames(const struct run_slots *slots, const struct findings *findings,
                      enum frame_state state);

/* The answer that mahyrei_run_read must give, if what was found is right. */
uint64_t expected_answer(const struct run_slots *slots, const struct findings *findings);

#endif
