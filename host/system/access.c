#include "system/access.h"

#include <errno.h>
#include <stdlib.h>
#include <sys/stat.h>
#include <unistd.h>

#ifdef __linux__
#include <sys/xattr.h>
#endif

/* ---- access lists */

/* What became of the old file's access list. */
enum list { NO_LIST, LIST_KEPT, LIST_LOST };

#ifdef __linux__
static const char LIST[] = "system.posix_acl_access";
enum { LIST_MAX = 65536 };

static bool is_absent(int error) {
    return error == ENODATA || error == ENOTSUP || error == ENOSYS;
}

/* The new file may have got a list from its folder, which says nothing about the old one. */
static bool drop_list(int file) {
    return fremovexattr(file, LIST) == 0 || is_absent(errno);
}

static enum list keep_list(int file, int old_file) {
    enum list outcome = LIST_LOST;
    char *const list = malloc(LIST_MAX);
    if (list != NULL) {
        const ssize_t len = fgetxattr(old_file, LIST, list, LIST_MAX);
        if (len < 0 && is_absent(errno)) {
            outcome = drop_list(file) ? NO_LIST : LIST_LOST;
        } else if (len >= 0 && fsetxattr(file, LIST, list, (size_t)len, 0) == 0) {
            outcome = LIST_KEPT;
        }
        free(list);
    }
    return outcome;
}
#else
/* Without a way to ask, none is taken to be there. */
static enum list keep_list(int file, int old_file) {
    (void)file;
    (void)old_file;
    return NO_LIST;
}
#endif

/* ---- mode */

/* The mode for a file whose owner or group is another than the old one's. Whoever was counted as
 * owner, group or other before may be counted elsewhere now, so each of these gets only what all of
 * those had among whom its members may have been. */
static mode_t narrowed(mode_t mode, bool same_owner, bool same_group) {
    const mode_t owner = mode >> 6 & 7;
    mode_t group = mode >> 3 & 7, other = mode & 7;
    if (!same_group) {
        group &= other;
        other = group;
    }
    if (!same_owner) {
        group &= owner;
        other &= owner;
    }
    return owner << 6 | group << 3 | other;
}

bool keep_access(int file, int old_file, bool *exactly) {
    struct stat old, now;
    *exactly = false;
    if (fstat(old_file, &old) != 0) {
        return false;
    }
    /* The owner if that is allowed, else the group alone; what came of it is asked for. */
    if (fchown(file, old.st_uid, old.st_gid) != 0 && fchown(file, (uid_t)-1, old.st_gid) != 0 &&
        errno != EPERM && errno != EINVAL) {
        return false;
    }
    if (fstat(file, &now) != 0) {
        return false;
    }
    const bool same_owner = now.st_uid == old.st_uid, same_group = now.st_gid == old.st_gid;
    const enum list list = keep_list(file, old_file);
    mode_t mode = narrowed(old.st_mode & 0777, same_owner, same_group);
    if (list == LIST_LOST || (list == LIST_KEPT && !(same_owner && same_group))) {
        /* With a list, the mode says nothing about its members: none of them, then. */
        mode &= 0700;
    }
    *exactly = same_owner && same_group && list != LIST_LOST;
    return fchmod(file, mode) == 0;
}
