/* Fades as a picture: the run row by row, and below it a bar a word. */
#ifndef PICTURES_FADES_PICTURE_H
#define PICTURES_FADES_PICTURE_H

#include <stdbool.h>
#include <stdio.h>

#include "runs/fade_counts.h"

/* The run row by row with its fades, and a bar a word. False where memory is short, which has been
 * said. */
bool draw_fades(FILE *to, const struct reckoning *reckoning);

#endif
