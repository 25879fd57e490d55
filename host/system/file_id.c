#include "system/file_id.h"

struct file_id file_id(const struct stat *status) {
    const bool keeps = S_ISREG(status->st_mode) || S_ISBLK(status->st_mode);
    return (struct file_id){keeps, status->st_dev, status->st_ino};
}

struct file_id file_id_of(int file) {
    struct stat status;
    return fstat(file, &status) == 0 ? file_id(&status) : (struct file_id){0};
}

struct file_id file_id_named(const char *name) {
    struct stat status;
    return stat(name, &status) == 0 ? file_id(&status) : (struct file_id){0};
}

bool same_id(const struct file_id *one, const struct file_id *other) {
    return one->known && other->known && one->device == other->device && one->inode == other->inode;
}
