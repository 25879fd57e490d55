/* A file by its device and inode, whatever names lead to it. */
#ifndef SYSTEM_FILE_ID_H
#define SYSTEM_FILE_ID_H

#include <stdbool.h>
#include <sys/stat.h>

/* Zeros are no file. */
struct file_id {
    bool known;
    dev_t device;
    ino_t inode;
};

/* Of a file that keeps bytes, regular or a block device; pipes, terminals and the like are none. */
struct file_id file_id(const struct stat *status);

/* The same for an open file, and for a name, at the end of all links. */
struct file_id file_id_of(int file);
struct file_id file_id_named(const char *name);

bool same_id(const struct file_id *one, const struct file_id *other);

#endif
