/*
 * A search in a recording, which may be a mapped file that somebody else writes to. The library is
 * owed slices that stay as they are, so it is lent copies: of a stretch of the recording to search
 * in, and of the bytes that a run lies in.
 */
#ifndef RUNS_RECORDING_SEARCH_H
#define RUNS_RECORDING_SEARCH_H

#include <stdbool.h>
#include <stdint.h>

#include "files/recording.h"
#include "library/library.h"
#include "runs/sheet.h"

struct search {
    const struct recording *recording;
    struct lent lent;  /* header and marker, which are the caller's; the capture is the copy */
    uint64_t first;    /* byte of the recording that the copy begins with */
    size_t size, step; /* bytes of a copy, and of those the ones that a marker can begin in */
};

/* The header and the marker stay the caller's. False where memory is short, which has been said;
 * free it in any case. */
bool search_begin(struct search *search, const struct recording *recording,
                  const struct bytes *header, const struct bytes *marker);
void search_free(struct search *search);

/* The answer of mahyrei_run_find from this slot of the recording on, its place a slot of the
 * recording. One call searches a stretch: where nothing begins in that, and there is more of the
 * recording, the answer is none yet, and `from` is where to go on. */
bool search_next(struct search *search, uint64_t *from, uint64_t *answer, bool *more);

/* Copies the bytes that the run from this slot on lies in, as far as they are there; `at` is its
 * first slot among them. `to` is a buffer for the slots of a run and a byte. */
void copy_run(const struct recording *recording, const struct sheet *run, uint64_t slot,
              struct bytes *to, uint64_t *at);

#endif
