#include "system/descriptors.h"

#include <errno.h>
#include <fcntl.h>
#include <limits.h>
#include <poll.h>
#include <stdint.h>
#include <stdio.h>
#include <stdlib.h>
#include <string.h>
#include <sys/stat.h>
#include <unistd.h>

/* ---- reading and writing */

/* After a call that failed: whether it is to be made again, after waiting where it would block. */
static bool again(int file, short wanted) {
    struct pollfd one = {file, wanted, 0};
    if (errno != EAGAIN && errno != EWOULDBLOCK) {
        return errno == EINTR;
    }
    return poll(&one, 1, -1) >= 0 || errno == EINTR;
}

ssize_t read_some(int file, void *to, size_t room) {
    ssize_t got;
    do {
        got = read(file, to, room);
    } while (got < 0 && again(file, POLLIN));
    return got;
}

bool write_all(int file, const void *from, size_t len) {
    const uint8_t *at = from;
    while (len > 0) {
        const ssize_t put = write(file, at, len);
        if (put == 0) {
            errno = EIO; /* a device that takes nothing would never be done */
        }
        if (put == 0 || (put < 0 && !again(file, POLLOUT))) {
            return false;
        }
        at += put > 0 ? put : 0;
        len -= put > 0 ? (size_t)put : 0;
    }
    return true;
}

static bool sync_file(int file) {
    int done;
    do {
        done = fsync(file);
    } while (done != 0 && errno == EINTR);
    return done == 0;
}

bool sync_data(int file) {
    struct stat status;
    if (fstat(file, &status) != 0) {
        return false;
    }
    return (!S_ISREG(status.st_mode) && !S_ISBLK(status.st_mode)) || sync_file(file);
}

bool sync_folder(int folder) {
    return sync_file(folder) || errno == EINVAL;
}

/* ---- names of open files */

bool is_dash(const char *name) {
    return strcmp(name, "-") == 0;
}

enum { HOPS = 40 };

/* A number as the system writes it. */
static bool digits_alone(const char *text) {
    return text[0] != '\0' && (text[0] != '0' || text[1] == '\0') &&
           text[strspn(text, "0123456789")] == '\0';
}

/* Whether this is the folder of some process's open files: /proc/7/fd or /proc/7/task/8/fd. */
static bool lists_open_files(const char *folder) {
    int end = -1;
    if (sscanf(folder, "/proc/%*u/fd%n", &end) == 0 && end >= 0 && folder[end] == '\0') {
        return true;
    }
    end = -1;
    return sscanf(folder, "/proc/%*u/task/%*u/fd%n", &end) == 0 && end >= 0 && folder[end] == '\0';
}

/* Whether a folder below /proc is this program's. */
static bool own(const char *folder) {
    char self[PATH_MAX];
    const size_t len = realpath("/proc/self", self) == NULL ? 0 : strlen(self);
    return len > 0 && strncmp(folder, self, len) == 0 && folder[len] == '/';
}

static int number_in(const char *folder, const char *base) {
    if (!own(folder)) {
        return FOREIGN_DESCRIPTOR;
    }
    errno = 0;
    const long number = digits_alone(base) ? strtol(base, NULL, 10) : -1;
    return errno == 0 && number >= 0 && number <= INT_MAX ? (int)number : NO_DESCRIPTOR;
}

/* Joins a folder and a name; false where that is too long. */
static bool join(char path[PATH_MAX], const char *folder, const char *name) {
    const int len = name[0] == '/' ? snprintf(path, PATH_MAX, "%s", name)
                                   : snprintf(path, PATH_MAX, "%s/%s", folder, name);
    return len >= 0 && len < PATH_MAX;
}

/* One hop: the number, where the path names an open file. Otherwise the path becomes what its last
 * link leads to, or empty where it is no link. */
static int hop(char path[PATH_MAX]) {
    char text[PATH_MAX], folder[PATH_MAX];
    char *const slash = strrchr(path, '/');
    const char *const base = slash == NULL ? path : slash + 1;
    snprintf(text, sizeof text, "%.*s", slash == NULL ? 1 : (int)(slash - path + 1),
             slash == NULL ? "." : path);
    int number = NO_DESCRIPTOR;
    ssize_t len = -1;
    if (realpath(text, folder) != NULL && base[0] != '\0') {
        if (lists_open_files(folder)) {
            number = number_in(folder, base);
        } else if (join(text, folder, base)) {
            char link[PATH_MAX];
            len = readlink(text, link, sizeof link - 1);
            link[len < 0 ? 0 : len] = '\0';
            len = len > 0 && join(path, folder, link) ? len : -1;
        }
    }
    if (len < 0) {
        path[0] = '\0';
    }
    return number;
}

int descriptor_of(const char *name) {
    char path[PATH_MAX];
    int number = NO_DESCRIPTOR;
    if (!join(path, ".", name)) {
        return NO_DESCRIPTOR;
    }
    for (int i = 0; i < HOPS && path[0] != '\0' && number == NO_DESCRIPTOR; i++) {
        number = hop(path);
    }
    return number;
}

bool handed_over(int file) {
    const int flags = fcntl(file, F_GETFD);
    if (flags < 0 || (flags & FD_CLOEXEC) != 0) {
        errno = EBADF;
        return false;
    }
    return true;
}
