/* Files that get whole lines at their end: a log, or results. */
#ifndef SYSTEM_APPENDING_H
#define SYSTEM_APPENDING_H

#include <stdbool.h>
#include <stddef.h>

/*
 * Adds a line in one write; false and errno where that fails. What a full disk or a power cut left
 * of an earlier line is ended first: joined to it, this line could be taken for part of another. A
 * line that another program may be writing gets a fifth of a second for its end.
 */
bool append_line(int file, const char *line, size_t len);

/* Brings the name of a file to the disk, which is its folder's business. */
bool sync_name(const char *name);

#endif
