/*
 * A list of fades, one a line: the first symbol and the length, decimal numbers below 2 to the
 * power 32, with blanks between them. What follows a # is left alone, and so is an empty line.
 * Whether the fades keep the rules is the library's to say.
 */
#ifndef RUNS_FADE_LIST_H
#define RUNS_FADE_LIST_H

#include <stdbool.h>
#include <stddef.h>
#include <stdint.h>

#include "files/bytes.h"

struct fade_list {
    size_t count;
    uint32_t *numbers; /* first symbol and length of each */
    size_t *lines;     /* where each is, from 1 */
};

/* Takes a text apart, and says what is wrong with it. Free the list in any case. */
bool fade_list_take(const char *name, const struct bytes *text, struct fade_list *list);
void fade_list_free(struct fade_list *list);

/* The symbols of all fades, if they do not overlap. */
uint64_t fade_symbols(const struct fade_list *list);

/* Says which fade breaks the rules of a run of so many symbols, where one does. */
void say_fade(const struct fade_list *list, uint64_t symbols, const char *about);

#endif
