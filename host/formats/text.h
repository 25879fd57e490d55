/* Text that is made in memory, so that it goes out whole, in one write. */
#ifndef FORMATS_TEXT_H
#define FORMATS_TEXT_H

#include <stdbool.h>
#include <stddef.h>
#include <stdio.h>

struct text {
    FILE *to; /* what is printed here is the text */
    char *at; /* on the heap, once it has ended */
    size_t len;
};

/* False and errno where there is no memory. */
bool text_begin(struct text *text);

/* False and errno where memory ran out on the way. Free the text in any case. */
bool text_end(struct text *text);

void text_free(struct text *text);

#endif
