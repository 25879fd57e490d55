/* What was found in a run as one page, which a browser shows without a network: the picture, what
 * the symbol below the pointer is, and the report. */
#ifndef PICTURES_RUN_PAGE_H
#define PICTURES_RUN_PAGE_H

#include "pictures/run_picture.h"

/* Prints it as HTML. False where memory is short, which has been said. */
bool draw_page(FILE *to, const struct scene *scene, const char *report);

#endif
