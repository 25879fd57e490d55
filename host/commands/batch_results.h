/*
 * The results of a list, one JSON line a run, in the order in which they end. A line is written
 * when its output is whole on the disk, and never before; that a run is done is believed only where
 * the line's digests are those of the files that are there now.
 */
#ifndef COMMANDS_BATCH_RESULTS_H
#define COMMANDS_BATCH_RESULTS_H

#include "commands/batch_list.h"
#include "files/bytes.h"
#include "report/entry.h"
#include "system/file_id.h"

/* A line on a run. The names are as in the list; the output is "" where nothing is written. */
struct record {
    size_t order;
    const char *run, *input, *output;
    bool done;                       /* it says so, and has all that follows */
    const char *firsts[FIRSTS_MOST]; /* digits of header and marker, or the rate */
    const char *input_sha256, *output_sha256;
    uint64_t input_bytes, output_bytes;
};

struct results {
    const char *name; /* NULL for standard output, of which nothing is known */
    int file;
    size_t count;
    struct record *records;
    struct bytes text;
};

/* Opens the file for this list alone, makes it where there is none, and reads what it has. */
bool results_open(const char *name, struct results *results);

/* Brings it to the disk and closes it. */
bool results_close(struct results *results);

/* The last line of this run, if that says that it was done; else NULL. */
const struct record *results_find(const struct results *results, const struct item *item);

/* Whether what the record says is what is there. */
bool still_done(const struct item *item, const struct record *record);

/* The output of this run, if it is there as one of its lines says that the list has written it. */
struct file_id own_output(const struct results *results, const struct item *item);

/* How a run ended. */
struct result {
    const struct item *item;
    int status;                /* as of the command: 0, 1 or 2 */
    int signal;                /* that ended it, or 0 */
    const struct entry *entry; /* NULL where it did not come to one */
    const char *said;          /* on standard error */
};

bool results_add(struct results *results, const struct result *result);

#endif
