/*
 * A file that is written whole: the bytes go to a temporary file in its folder, which takes the
 * name when it is on the disk.
 *
 * Links are followed once, and the folder stays open from then on: whatever is done to the name or
 * to the folders above it meanwhile, the bytes go where they led to at that time.
 */
#ifndef FILES_REPLACING_H
#define FILES_REPLACING_H

#include <stdbool.h>
#include <stddef.h>
#include <sys/stat.h>

#include "system/file_id.h"

/* Where a file is, or is to be. */
struct place {
    const char *name;  /* as it was given, for what is said */
    char *folder_name; /* on the heap, and so is the next */
    char *base;        /* in that folder */
    int folder;
};

/* Finds it; what is wrong has been said, also that a link leads nowhere, unless it may. Close it in
 * any case. */
bool place_open(const char *name, bool nowhere, struct place *place);
void place_close(struct place *place);

/* What is there now; false and errno where there is nothing. */
bool place_look(const struct place *place, struct stat *status);

/* Whether files can be made in the folder; what is wrong has been said. */
bool place_writable(const struct place *place);

/* Files that an output does not go over, by whatever name. */
enum { SPARED_MOST = 4 };
struct spared {
    size_t count;
    struct file_id files[SPARED_MOST];
    const char *what; /* is said where it would: `this is the capture, and ...` */
};

bool is_spared(const struct spared *spared, const struct file_id *file);

/* What may be replaced, and what may not. */
struct terms {
    bool any;           /* whatever is there */
    struct file_id own; /* or only this file; where neither is given, nothing */
    bool exactly; /* of that one nothing may be lost: not the owner, group, mode or access list, and
                     where it is gone, nothing takes its place */
    const struct spared *spared; /* files that are never replaced */
};

/* How it ended. */
enum replaced {
    REPLACED,
    NOT_REPLACED, /* which has been said */
    TAKEN         /* a file is there that may not be replaced; nothing has been said */
};

enum replaced replace(const struct place *place, const struct terms *terms, const void *from,
                      size_t len);

#endif
