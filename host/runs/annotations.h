/* What was found in a recording or a run, and what was refused, as annotations of SigMF metadata.
 */
#ifndef RUNS_ANNOTATIONS_H
#define RUNS_ANNOTATIONS_H

#include <stdint.h>
#include <stdio.h>

#include "runs/run_slots.h"
#include "runs/scan_counts.h"

/* The runs that are sound and the starts that were refused, of which scan_keep_starts has kept the
 * first. */
void annotate_scan(FILE *to, const struct scan_counts *counts);

/* The run that begins at this slot of the data, and the answer to it with its sentence; and the
 * symbols in which something is wrong, those beside each other as one, and of these the first
 * STRETCHES_MOST. */
enum { STRETCHES_MOST = 10000 };
void annotate_run(FILE *to, const struct run_slots *slots, const uint8_t *marker, uint64_t slot,
                  uint64_t answer, const char *sentence);

#endif
