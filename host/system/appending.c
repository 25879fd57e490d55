#include "system/appending.h"

#include <errno.h>
#include <fcntl.h>
#include <limits.h>
#include <stdio.h>
#include <stdlib.h>
#include <string.h>
#include <sys/stat.h>
#include <time.h>
#include <unistd.h>

#include "system/descriptors.h"

/* ---- lines */

/* One byte of a file that may be open for writing alone. */
static bool read_byte(int file, off_t at, char *byte) {
    char name[40];
    if (pread(file, byte, 1, at) == 1) {
        return true;
    }
    snprintf(name, sizeof name, "/proc/self/fd/%d", file);
    const int again = open(name, O_RDONLY | O_CLOEXEC | O_NOCTTY);
    const bool good = again >= 0 && pread(again, byte, 1, at) == 1;
    if (again >= 0) {
        (void)close(again);
    }
    return good;
}

enum line_end { ENDED, UNENDED, UNKNOWN };

/* How the line before the next write ends. Only a regular file is looked at. */
static enum line_end line_end(int file) {
    struct stat status;
    char last = '\0';
    if (fstat(file, &status) != 0 || !S_ISREG(status.st_mode)) {
        return ENDED;
    }
    const bool at_end = (fcntl(file, F_GETFL) & O_APPEND) != 0;
    const off_t end = at_end ? status.st_size : lseek(file, 0, SEEK_CUR);
    if (end <= 0) {
        return ENDED;
    }
    if (!read_byte(file, end - 1, &last)) {
        return UNKNOWN;
    }
    return last == '\n' ? ENDED : UNENDED;
}

/* Whether what is written next would be joined to an unended line. Where that cannot be known it is
 * taken to be so: an empty line does no harm. While another run writes its line, others can see it
 * without its end, so an unended line is looked at again, for a fifth of a second in all. */
static bool within_line(int file) {
    const struct timespec pause = {0, 2000000};
    enum line_end end = line_end(file);
    for (int looks = 1; end == UNENDED && looks < 100; looks++) {
        (void)nanosleep(&pause, NULL);
        end = line_end(file);
    }
    return end != ENDED;
}

bool append_line(int file, const char *line, size_t len) {
    const size_t ended = within_line(file) ? 1 : 0;
    char *const text = malloc(len + 1);
    if (text == NULL) {
        return false;
    }
    text[0] = '\n';
    memcpy(text + ended, line, len);
    const bool good = write_all(file, text, ended + len);
    const int kept = errno;
    free(text);
    errno = kept;
    return good;
}

/* ---- names */

bool sync_name(const char *name) {
    char path[PATH_MAX];
    if (realpath(name, path) == NULL) {
        return false;
    }
    char *const slash = strrchr(path, '/');
    slash[slash == path ? 1 : 0] = '\0';
    const int folder = open(path, O_RDONLY | O_DIRECTORY | O_CLOEXEC);
    if (folder < 0) {
        return false;
    }
    const bool good = sync_folder(folder);
    const int kept = errno;
    (void)close(folder);
    errno = kept;
    return good;
}
