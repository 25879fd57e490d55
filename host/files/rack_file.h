/*
 * The file that a rack is kept in. It is replaced whole like every output, and locked from the
 * moment at which it is read, so that of two programs at work on it neither loses the other's
 * change. Links are followed once, before it is locked.
 */
#ifndef FILES_RACK_FILE_H
#define FILES_RACK_FILE_H

#include <stdbool.h>
#include <stddef.h>
#include <stdint.h>
#include <time.h>

#include "files/replacing.h"
#include "mahyrei.h"

struct rack_file {
    struct place place;
    int file; /* -1 where there is none, which is the empty rack */
    uint8_t bytes[MAHYREI_RACK_BYTES + 1];
    size_t len; /* one more than a rack has means any more */
};

/* How long to wait for programs that have the lock, one after another. */
struct patience {
    bool bounded;
    uint64_t seconds;
    bool quiet; /* that there is something to wait for is not said */
    bool begun; /* waiting has begun, at this time */
    struct timespec since;
};

/* Waits for the lock and takes the bytes in. What is wrong has been said. Close it in any case. */
bool rack_file_open(struct rack_file *rack, const char *name, struct patience *patience);

/* Puts the bytes, which are a rack, in the place of what was there. False where that failed, which
 * has been said, or where another file is there by now: then `late` is set, and all of it is to be
 * done again. */
bool rack_file_put(const struct rack_file *rack, bool *late);

/* Lets others at it. */
void rack_file_close(struct rack_file *rack);

#endif
