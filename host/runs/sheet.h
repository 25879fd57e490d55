/* What follows from a header, and the line that runsheet prints. */
#ifndef RUNS_SHEET_H
#define RUNS_SHEET_H

#include <stddef.h>
#include <stdint.h>
#include <stdio.h>

#include "files/bytes.h"
#include "mahyrei_plain.h"

/* The fields, where the header is long enough to have any; the sizes, where it is accepted. */
struct sheet {
    struct mahyrei_fields fields;
    struct mahyrei_sizes sizes;
};

/* Fills in the sheet by the plain functions: 0, or a number from 1 to 7, or 20. */
unsigned sheet_of(const struct bytes *header, struct sheet *sheet);

/* The slots of a symbol with all its copies. */
uint64_t symbol_slots(const struct sheet *sheet);

/* How much is read of slots: one byte more than such a run has, and never less than one copy of any
 * run could have. */
size_t slots_limit(const struct sheet *sheet);

/* The sheet for this number: as the line that runsheet prints; a line for each field and size; as
 * JSON. */
void print_sheet(FILE *to, const struct sheet *sheet, unsigned number);
void print_sheet_long(FILE *to, const struct bytes *header, const struct sheet *sheet,
                      unsigned number);
void print_sheet_json(FILE *to, const struct bytes *header, const struct sheet *sheet,
                      unsigned number);

#endif
