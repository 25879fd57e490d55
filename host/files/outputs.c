#include "files/outputs.h"

#include <errno.h>
#include <fcntl.h>
#include <stdint.h>
#include <string.h>
#include <sys/stat.h>
#include <unistd.h>

#include "report/messages.h"
#include "report/progress.h"
#include "system/descriptors.h"

void output_spare(struct output *output, struct file_id file) {
    if (file.known && output->spared.count < SPARED_MOST) {
        output->spared.files[output->spared.count++] = file;
    }
}

static const char THERE[] = "this file already exists; --force replaces it";

/* ---- open files, devices, pipes */

/* Some file systems say only on closing that a write failed. The number stays in use: a second one
 * is closed for it. */
static bool end_handed(int file) {
    if (!sync_data(file)) {
        return false;
    }
    const int second = fcntl(file, F_DUPFD_CLOEXEC, 0);
    return second >= 0 && close(second) == 0;
}

static bool write_handed(int file, const void *from, size_t len) {
    return handed_over(file) && write_all(file, from, len) && end_handed(file);
}

/* Whether an open file is the one that is to be left alone, which is said. */
static bool spares(const struct output *output, int file, const char *shown) {
    const struct file_id there = file_id_of(file);
    if (is_spared(&output->spared, &there)) {
        complain_text(shown, output->spared.what);
        return false;
    }
    return true;
}

/* A name that led to a device or a pipe may lead to a file by the time it is opened; that would be
 * written over in place. */
static bool open_device(const struct output *output, int *file) {
    struct stat status;
    *file = open(output->name, O_WRONLY | O_CLOEXEC | O_NOCTTY);
    if (*file < 0 || fstat(*file, &status) != 0) {
        complain(output->name, errno);
        return false;
    }
    if (S_ISREG(status.st_mode)) {
        complain_text(output->name, "this was not a file when it was checked, and is one now");
        return false;
    }
    return spares(output, *file, output->name);
}

static bool write_device(const struct output *output, const void *from, size_t len) {
    int file;
    bool good = open_device(output, &file);
    if (good && (!write_all(file, from, len) || !sync_data(file))) {
        complain(output->name, errno);
        good = false;
    }
    if (file >= 0 && close(file) != 0 && good) {
        complain(output->name, errno);
        good = false;
    }
    return good;
}

/* ---- files */

/* Whether the rest of an open file is these very bytes. Where reading fails, errno is not 0. */
static bool is_same(int file, const uint8_t *from, size_t len) {
    uint8_t some[65536];
    size_t at = 0;
    errno = 0;
    for (;;) {
        const ssize_t got = read_some(file, some, sizeof some);
        if (got == 0) {
            errno = 0;
            return at == len;
        }
        if (got < 0 || (size_t)got > len - at || memcmp(from + at, some, (size_t)got) != 0) {
            errno = got < 0 ? errno : 0;
            return false;
        }
        at += (size_t)got;
    }
}

enum { TO_READ = O_RDONLY | O_NOFOLLOW | O_NONBLOCK | O_NOCTTY | O_CLOEXEC };

/* Whether a file that is there has these very bytes, and is on the disk by now: whoever put it
 * there may have been ended before that. What is wrong has been said. */
static bool will_do(const struct place *place, const uint8_t *from, size_t len) {
    const int file = openat(place->folder, place->base, TO_READ);
    const bool same = file >= 0 && is_same(file, from, len);
    const bool good = same && sync_data(file) && sync_folder(place->folder);
    if (!same) {
        complain_text(place->name, THERE);
    } else if (!good) {
        complain(place->name, errno);
    }
    if (file >= 0) {
        (void)close(file);
    }
    return good;
}

bool output_is_file(const struct output *output) {
    struct stat status;
    return !is_dash(output->name) && descriptor_of(output->name) == NO_DESCRIPTOR &&
           (stat(output->name, &status) != 0 || S_ISREG(status.st_mode));
}

/* What the system keeps of it in memory is dropped first, if it will: it has been brought to the
 * disk, and is to come from there. */
bool output_read_back(const struct output *output, const void *from, size_t len) {
    struct place place;
    bool good = place_open(output->name, false, &place);
    if (good) {
        const int file = openat(place.folder, place.base, TO_READ);
        if (file >= 0) {
            (void)posix_fadvise(file, 0, 0, POSIX_FADV_DONTNEED);
        }
        good = file >= 0 && is_same(file, from, len);
        if (!good && errno != 0) {
            complain(output->name, errno);
        } else if (!good) {
            complain_text(output->name, "what is read back is not what was written");
        }
        if (file >= 0) {
            (void)close(file);
        }
    }
    place_close(&place);
    return good;
}

static bool put_file(const struct output *output, const void *from, size_t len) {
    struct place place;
    bool good = false;
    if (place_open(output->name, false, &place)) {
        const struct terms terms = {
            .any = output->force, .own = output->own, .spared = &output->spared};
        const enum replaced outcome = replace(&place, &terms, from, len);
        good = outcome == REPLACED;
        if (outcome == TAKEN && output->same_will_do) {
            good = will_do(&place, from, len);
        } else if (outcome == TAKEN) {
            complain_text(output->name, THERE);
        }
    }
    place_close(&place);
    return good;
}

bool output_put(const struct output *output, const void *from, size_t len) {
    struct stat status;
    const bool dash = is_dash(output->name);
    const int handed = dash ? STDOUT_FILENO : descriptor_of(output->name);
    const char *const shown = dash ? "standard output" : output->name;
    if (handed >= 0 && !spares(output, handed, shown)) {
        return false;
    }
    if (handed >= 0) {
        const bool good = write_handed(handed, from, len);
        if (!good) {
            complain(shown, errno);
        }
        return good;
    }
    if (stat(output->name, &status) == 0 && !S_ISREG(status.st_mode)) {
        if (output->to_disk && !S_ISDIR(status.st_mode)) {
            complain_text(output->name, "this is no file, and would keep nothing on the disk");
            return false;
        }
        return write_device(output, from, len);
    }
    if (handed == FOREIGN_DESCRIPTOR) {
        complain_text(output->name, "this is the open file of another program");
        return false;
    }
    return put_file(output, from, len);
}

bool put_text(const char *text, size_t len) {
    if (!write_all(STDOUT_FILENO, text, len)) {
        complain("standard output", errno);
        return false;
    }
    return true;
}

bool end_text(void) {
    if (!end_handed(STDOUT_FILENO)) {
        complain("standard output", errno);
        return false;
    }
    return true;
}

/* ---- before anything is done */

static bool is_terminal(const char *name) {
    struct stat status;
    const int handed = is_dash(name) ? STDOUT_FILENO : descriptor_of(name);
    if (handed >= 0) {
        return isatty(handed) != 0;
    }
    if (stat(name, &status) != 0 || !S_ISCHR(status.st_mode)) {
        return false;
    }
    const int file = open(name, O_WRONLY | O_CLOEXEC | O_NOCTTY | O_NONBLOCK);
    const bool terminal = file >= 0 && isatty(file) != 0;
    if (file >= 0) {
        (void)close(file);
    }
    return terminal;
}

/* The rest of the answer's line is taken too. */
static bool take_yes(void) {
    char first = '\0', c = '\0';
    while (read_some(STDIN_FILENO, &c, 1) == 1 && c != '\n') {
        if (first == '\0') {
            first = c;
        }
    }
    return first == 'y' || first == 'Y';
}

static bool says_yes(const char *name) {
    if (isatty(STDIN_FILENO) == 0 || isatty(STDERR_FILENO) == 0) {
        return false;
    }
    question(name, "this file already exists; replace it? [y/N] ");
    const bool yes = take_yes();
    progress_start();
    return yes;
}

static bool may_replace(struct output *output, const struct stat *status) {
    const struct file_id there = file_id(status);
    if (is_spared(&output->spared, &there)) {
        complain_text(output->name, output->spared.what);
        return false;
    }
    if (output->force || output->same_will_do || same_id(&there, &output->own)) {
        return true;
    }
    output->force = output->ask && says_yes(output->name);
    if (!output->force) {
        complain_text(output->name, THERE);
    }
    return output->force;
}

static bool file_ready(struct output *output) {
    struct place place;
    struct stat status;
    bool good = place_open(output->name, false, &place) && place_writable(&place);
    if (good && place_look(&place, &status)) {
        good = may_replace(output, &status);
        if (good && faccessat(place.folder, place.base, W_OK, 0) != 0) {
            complain(output->name, errno);
            good = false;
        }
    }
    place_close(&place);
    return good;
}

bool output_ready(struct output *output) {
    struct stat status;
    const bool dash = is_dash(output->name);
    const char *const shown = dash ? "standard output" : output->name;
    if (!output->force && is_terminal(output->name)) {
        complain_text(shown,
                      "this is a terminal, and the output is bytes; name a file, or give --force");
        return false;
    }
    const int handed = dash ? STDOUT_FILENO : descriptor_of(output->name);
    if (handed != NO_DESCRIPTOR) {
        return handed == FOREIGN_DESCRIPTOR || spares(output, handed, shown);
    }
    const bool there = stat(output->name, &status) == 0;
    if (there && S_ISDIR(status.st_mode)) {
        complain(output->name, EISDIR);
        return false;
    }
    return (there && !S_ISREG(status.st_mode)) || file_ready(output);
}
