/* The slots of a run as a picture: row by row with its markers, faults coloured, words and frames
 * beside it. */
#ifndef PICTURES_RUN_PICTURE_H
#define PICTURES_RUN_PICTURE_H

#include <stdbool.h>
#include <stdio.h>

#include "runs/findings.h"
#include "runs/run_slots.h"

/* What is drawn; the name and the answer are for the title. */
struct scene {
    const char *name;
    const struct run_slots *slots;
    const uint8_t *marker;
    const struct findings *findings;
    uint64_t answer;      /* of mahyrei_run_read */
    const char *sentence; /* of the answer */
    bool captured;        /* the run is one in a capture, and begins at this slot of it */
    uint64_t slot;
    uint64_t elsewhere; /* where the marker begins in slots that look like a capture, or 0 */
};

/* Prints it as SVG. False where memory is short, which has been said. */
bool draw_picture(FILE *to, const struct scene *scene);

#endif
