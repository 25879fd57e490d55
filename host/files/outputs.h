/*
 * Outputs are written whole. What goes wrong is said on standard error, where it happens; the
 * caller has only to end with status 2.
 */
#ifndef FILES_OUTPUTS_H
#define FILES_OUTPUTS_H

#include <stdbool.h>
#include <stddef.h>

#include "files/replacing.h"
#include "system/file_id.h"

struct output {
    const char *name;
    bool force;           /* replaces an existing file, and writes bytes to a terminal */
    bool ask;             /* where the file is there, somebody at a terminal may be asked */
    struct file_id own;   /* a file that may be replaced in any case */
    bool same_will_do;    /* a file that is there and has these very bytes is the output */
    bool to_disk;         /* it is a file, and no device or pipe of that name */
    struct spared spared; /* files that are not replaced, even with force */
};

/* Adds a file that is not replaced. */
void output_spare(struct output *output, struct file_id file);

/*
 * Before anything is done: whether bytes can be meant for this output. A file that is there is not,
 * unless it may be replaced or whoever is asked says so, which sets `force`; nor is a terminal, or
 * a folder that is missing or in which nothing can be made.
 */
bool output_ready(struct output *output);

/*
 * Writes an output. A file gets the bytes all at once: they go to a temporary file in its folder,
 * which is renamed when it is whole and on the disk. A device, a pipe and an open file, standard
 * output among them, get the bytes as they are written; those that are on a disk are brought there.
 */
bool output_put(const struct output *output, const void *from, size_t len);

/* Whether it is a file that can be read back: neither a device, nor a pipe, nor an open file. */
bool output_is_file(const struct output *output);

/* Reads an output back, from the disk as far as the system lets it, and compares. What is wrong has
 * been said. */
bool output_read_back(const struct output *output, const void *from, size_t len);

/* Prints text on standard output. When all is printed, it is brought to the disk, if it has one. */
bool put_text(const char *text, size_t len);
bool end_text(void);

#endif
