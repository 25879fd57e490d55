/* SVG: texts, squares, and what pictures begin and end with. */
#ifndef PICTURES_SVG_H
#define PICTURES_SVG_H

#include <stdint.h>
#include <stdio.h>

#define INK "#1b2530"
#define GREY "#4a5a6a"

/* More about a text. */
extern const char BOLD[], PALE[], PALE_RIGHT[];

/* A white picture of this size, named by a text. */
void svg_begin(FILE *to, const char *name, uint64_t width, uint64_t height);
void svg_end(FILE *to);

/* Text from outside: what has no place in XML is a question mark. */
void print_xml(FILE *to, const char *text);

/* The same, and a long one is shortened in the middle, so that its end can be seen. */
void print_short(FILE *to, const char *text);

/* The step of a scale, 1, 2 or 5 and zeros, with which it has at most so many. */
uint64_t round_step(uint64_t length, uint64_t most);

/* A tick of a scale, with its number below. */
void print_tick(FILE *to, uint64_t x, uint64_t y, uint64_t number);

/* A text at its left end, or as `more` says; opened, it is closed by `</text>`. */
void open_text(FILE *to, uint64_t x, uint64_t y, unsigned size, const char *more);
void print_text(FILE *to, uint64_t x, uint64_t y, unsigned size, const char *more,
                const char *text);

/* In as many lines as it takes; where the next one is. */
uint64_t print_sentence(FILE *to, uint64_t x, uint64_t y, const char *text);

/* A square of 11 pixels, left open: `/>`, or `>`, what it holds, and `</rect>`. */
void open_square(FILE *to, uint64_t x, uint64_t y, const char *colour);

/* A square, and what its colour says of how many, in text that begins so far from its left end. */
enum { KEY_TEXT = 18 };
void print_key(FILE *to, uint64_t x, uint64_t y, const char *colour, const char *text,
               uint64_t count);

#endif
