/*
 * A file that is mapped into memory. Its bytes are there as long as the file has them: where it
 * becomes shorter, or the disk fails, a look at them raises SIGBUS, which no call can give back.
 * The program then says a last line and ends with status 2.
 */
#ifndef SYSTEM_MAPPING_H
#define SYSTEM_MAPPING_H

#include <stdbool.h>
#include <stddef.h>
#include <stdint.h>

struct mapping {
    uint8_t *at; /* to be read alone; NULL where nothing is mapped */
    size_t len;
};

/* Maps so many bytes of an open file, at least one; false and errno where that fails. There is one
 * mapping at a time. */
bool mapping_make(int file, size_t len, struct mapping *mapping);
void mapping_end(struct mapping *mapping);

/* The line that is said where a byte of the mapping cannot be had; it stays where it is. `at_end`
 * comes before it, in the signal's handler. */
bool mapping_watch(const struct mapping *mapping, const char *line, void (*at_end)(void));

#endif
