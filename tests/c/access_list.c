/*
 * Sets and shows access lists of files without the acl package.
 *
 *   access_list set FILE          owner rw, user 65534 rw, group nothing, mask rw, others nothing
 *   access_list default FOLDER    the same as the list that new files in the folder get
 *   access_list show FILE         its list as hexadecimal digits, or `none`
 *
 * Status 3 where the file system has no such lists.
 */
#include <errno.h>
#include <stdint.h>
#include <stdio.h>
#include <string.h>
#include <sys/types.h>
#include <sys/xattr.h>

/* As Linux has it: version 2, then tag, permissions and number of each entry. */
static const uint8_t LIST[] = {2,   0,   0,   0,   0x01, 0, 6, 0, 255, 255, 255, 255, 0x02, 0, 6, 0,
                               254, 255, 0,   0,   4,    0, 0, 0, 255, 255, 255, 255, 16,   0, 6, 0,
                               255, 255, 255, 255, 0x20, 0, 0, 0, 255, 255, 255, 255};

static int show(const char *file) {
    uint8_t list[1024];
    const ssize_t len = getxattr(file, "system.posix_acl_access", list, sizeof list);
    for (ssize_t i = 0; i < len; i++) {
        printf("%02X", list[i]);
    }
    puts(len < 0 ? "none" : "");
    return 0;
}

int main(int argc, char *argv[]) {
    if (argc != 3) {
        return 2;
    }
    if (strcmp(argv[1], "show") == 0) {
        return show(argv[2]);
    }
    const char *const kind =
        strcmp(argv[1], "default") == 0 ? "system.posix_acl_default" : "system.posix_acl_access";
    return setxattr(argv[2], kind, LIST, sizeof LIST, 0) == 0 ? 0 : errno == ENOTSUP ? 3 : 1;
}
