/*
 * Open files: whole reads and writes on them, and names that stand for one, such as /dev/stdout.
 */
#ifndef SYSTEM_DESCRIPTORS_H
#define SYSTEM_DESCRIPTORS_H

#include <stdbool.h>
#include <stddef.h>
#include <sys/types.h>

/* Reads some bytes, at least one; 0 at the end, -1 and errno where that fails. Interrupted calls
 * are made again, and a file that does not block is waited for. */
ssize_t read_some(int file, void *to, size_t room);

/* Writes all of it; false and errno where that fails. */
bool write_all(int file, const void *from, size_t len);

/* Brings a file to the disk, if it is one that has a disk: regular, or a block device. */
bool sync_data(int file);

/* The same for a folder. Some file systems cannot do that to one. */
bool sync_folder(int folder);

/* The operand that stands for standard input or output. */
bool is_dash(const char *name);

enum { NO_DESCRIPTOR = -1, FOREIGN_DESCRIPTOR = -2 };

/* The number of the open file that a name stands for: /dev/stdout, /dev/fd/3, /proc/self/fd/3,
 * a link to one of these. NO_DESCRIPTOR for any other name, FOREIGN_DESCRIPTOR for the open file of
 * another process. */
int descriptor_of(const char *name);

/* Whether the caller handed this one over; errno is set if not. The program's own are closed on
 * exec, and none of those that it was started with is. */
bool handed_over(int file);

#endif
