/* The log: a line a run, on which erasing rests. */
#ifndef REPORT_LOG_H
#define REPORT_LOG_H

#include <stdbool.h>

#include "report/entry.h"
#include "system/file_id.h"

/* Where the log goes. */
struct log {
    int file;         /* -1 where there is none */
    const char *name; /* NULL for standard error */
    bool ours;        /* opened here, and so to be closed */
    bool created;     /* there was no such file before */
};

/* The log's file: the one named, which can be an open file such as /dev/fd/3, or standard error.
 * False where it cannot be opened. */
bool log_open(struct log *log, const char *name);

/* Which file it is; standard error is none, and neither is a log that there is not. */
struct file_id log_id(const struct log *log);

/* Closes it, and takes it away if it was not there before. */
void log_drop(struct log *log);

/* Adds the line of a run in one write, and brings a log that was named to the disk. */
bool log_add(const struct log *log, const struct entry *entry, int status);

/* The same for the last line, and closes it. */
bool log_end(struct log *log, const struct entry *entry, int status);

#endif
