/*
 * A recording, which may be larger than memory: a file is mapped and not read. It is what it was
 * when it was opened, as long as nobody changes it; whether somebody has is asked at the end.
 */
#ifndef FILES_RECORDING_H
#define FILES_RECORDING_H

#include <stdbool.h>
#include <sys/stat.h>

#include "files/bytes.h"
#include "formats/text.h"
#include "system/file_id.h"
#include "system/mapping.h"

struct recording {
    const char *name;   /* for what is said */
    struct bytes bytes; /* read, or those of the mapping */
    struct file_id id;
    int file; /* the one that is mapped, or -1 */
    struct mapping mapping;
    struct stat before;
    struct text lost; /* what is said where the mapping loses a byte */
};

/* Maps a file; anything else, such as a pipe, is read to its end. What is wrong has been said.
 * Close it in any case. */
bool recording_open(const char *name, struct recording *recording);
void recording_close(struct recording *recording);

/* Whether the file is as it was; if not, that is said. */
bool recording_unchanged(const struct recording *recording);

#endif
