/* Numbers and code rates as texts. */
#ifndef FORMATS_NUMBERS_H
#define FORMATS_NUMBERS_H

#include <stdbool.h>
#include <stdint.h>

/* Decimal digits and nothing else, up to the largest number. */
bool read_number(const char *text, uint64_t *number);

/* A number for people, 1,500, in a buffer for the largest; what is printed is also given back. */
enum { GROUPED = 32 };
const char *grouped(uint64_t number, char text[GROUPED]);

/* The name of a code rate, 1/3, 1/2 or 2/3; NULL where there is no such rate. */
const char *rate_name(uint64_t rate);

/* The rate of this name. */
bool read_rate(const char *text, uint64_t *rate);

#endif
