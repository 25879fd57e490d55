/* A recording as a picture: its runs on a line, and below it where starts were refused. */
#ifndef PICTURES_SCAN_PICTURE_H
#define PICTURES_SCAN_PICTURE_H

#include <stdio.h>

#include "runs/scan_counts.h"

/* Prints it as SVG. */
void draw_scan(FILE *to, const struct scan_counts *counts);

#endif
