#include "files/replacing.h"

#include <errno.h>
#include <fcntl.h>
#include <limits.h>
#include <stdlib.h>
#include <string.h>
#include <unistd.h>

#include "report/messages.h"
#include "system/access.h"
#include "system/descriptors.h"
#include "system/temporary.h"

/* ---- places */

static bool is_link(const char *name) {
    struct stat status;
    return lstat(name, &status) == 0 && S_ISLNK(status.st_mode);
}

/* Takes a path apart, into the heap. */
static bool take_apart(const char *path, struct place *place) {
    const char *const slash = strrchr(path, '/');
    place->folder_name = slash == NULL   ? strdup(".")
                         : slash == path ? strdup("/")
                                         : strndup(path, (size_t)(slash - path));
    place->base = strdup(slash == NULL ? path : slash + 1);
    return place->folder_name != NULL && place->base != NULL;
}

enum { HOPS = 40 };

/* What a link leads to, on the heap; NULL and errno where that fails. */
static char *hop(const char *path) {
    char target[PATH_MAX];
    const ssize_t len = readlink(path, target, sizeof target - 1);
    if (len < 0) {
        return NULL;
    }
    target[len] = '\0';
    const char *const slash = strrchr(path, '/');
    const size_t before = target[0] == '/' || slash == NULL ? 0 : (size_t)(slash + 1 - path);
    char *const led = malloc(before + (size_t)len + 1);
    if (led != NULL) {
        memcpy(led, path, before);
        memcpy(led + before, target, (size_t)len + 1);
    }
    return led;
}

/* The path at the end of all links, which may lead nowhere. */
static char *follow(const char *name) {
    char *path = strdup(name);
    for (int i = 0; path != NULL && is_link(path); i++) {
        char *const next = i < HOPS ? hop(path) : NULL;
        if (next == NULL && i == HOPS) {
            errno = ELOOP;
        }
        free(path);
        path = next;
    }
    return path;
}

static bool open_folder(struct place *place) {
    place->folder = open(place->folder_name, O_RDONLY | O_DIRECTORY | O_CLOEXEC);
    if (place->folder < 0) {
        complain_at(place->name, "its folder cannot be opened:", place->folder_name, errno);
        return false;
    }
    if (place->base[0] == '\0') {
        complain(place->name, place->name[0] == '\0' ? ENOENT : EISDIR);
        return false;
    }
    return true;
}

bool place_open(const char *name, bool nowhere, struct place *place) {
    struct stat status;
    *place = (struct place){.name = name, .folder = -1};
    char *const target = follow(name);
    const bool apart = target != NULL && take_apart(target, place);
    free(target);
    if (!apart) {
        complain(name, errno);
        return false;
    }
    if (!open_folder(place)) {
        return false;
    }
    if (!nowhere && is_link(name) && !place_look(place, &status)) {
        complain(name, errno);
        return false;
    }
    return true;
}

void place_close(struct place *place) {
    if (place->folder >= 0) {
        (void)close(place->folder);
    }
    free(place->folder_name);
    free(place->base);
    *place = (struct place){.folder = -1};
}

bool place_look(const struct place *place, struct stat *status) {
    return fstatat(place->folder, place->base, status, AT_SYMLINK_NOFOLLOW) == 0;
}

bool place_writable(const struct place *place) {
    if (faccessat(place->folder, ".", W_OK | X_OK, 0) != 0) {
        complain_at(place->name, "no temporary file can be made in", place->folder_name, errno);
        return false;
    }
    return true;
}

/* ---- replacing */

bool is_spared(const struct spared *spared, const struct file_id *file) {
    for (size_t i = 0; spared != NULL && i < spared->count; i++) {
        if (same_id(&spared->files[i], file)) {
            return true;
        }
    }
    return false;
}

/* Closes in any case; false and errno where something failed, now or before. */
static bool close_after(int file, bool good) {
    const int kept = errno;
    if (close(file) != 0 && good) {
        return false;
    }
    errno = kept;
    return good;
}

/* A replacement on its way. Where it fails, errno says why, and step what could not be done in the
 * folder; NULL where the name alone says enough. */
struct way {
    const struct place *place;
    const struct terms *terms;
    const char *step;
    int old; /* the file that is there, open, or -1 */
};

/* A new file is made with the mode that any program's would get; one that takes the place of
 * another is shut until it has the other's. */
static bool write_temporary(struct way *way, const void *from, size_t len) {
    const int file = temporary_make(way->place->folder, way->old < 0 ? 0666 : 0600);
    if (file < 0) {
        way->step = "no temporary file can be made in";
        return false;
    }
    bool exactly = true;
    bool good = write_all(file, from, len) &&
                (way->old < 0 || keep_access(file, way->old, &exactly)) && sync_data(file);
    if (good && !exactly && way->terms->exactly) {
        errno = EPERM;
        way->step = "owner, group, mode and access list have to be kept, and cannot be, in";
        good = false;
    }
    return close_after(file, good);
}

/* What is there may have changed since it was opened, or be gone. */
static enum replaced look_again(const struct way *way) {
    struct stat status;
    if (!place_look(way->place, &status)) {
        const bool gone = way->old >= 0 && way->terms->exactly;
        return errno != ENOENT ? NOT_REPLACED : gone ? TAKEN : REPLACED;
    }
    const struct file_id now = file_id(&status);
    if (is_spared(way->terms->spared, &now)) {
        errno = EEXIST;
        return NOT_REPLACED;
    }
    return way->terms->any || same_id(&now, &way->terms->own) ? REPLACED : TAKEN;
}

static enum replaced take_name(struct way *way) {
    const enum replaced seen = look_again(way);
    if (seen != REPLACED) {
        return seen;
    }
    const bool over = way->terms->any || way->old >= 0;
    if ((over ? temporary_name : temporary_name_new)(way->place->base)) {
        return REPLACED;
    }
    way->step = "the finished file cannot take this name in";
    return errno == EEXIST && !over ? TAKEN : NOT_REPLACED;
}

static enum replaced go(struct way *way, const void *from, size_t len) {
    if (!write_temporary(way, from, len)) {
        return NOT_REPLACED;
    }
    const enum replaced taken = take_name(way);
    return taken == REPLACED && !sync_folder(way->place->folder) ? NOT_REPLACED : taken;
}

static void complain_of(const struct way *way) {
    struct stat status;
    const int error = errno;
    const bool there = place_look(way->place, &status);
    const struct file_id now = there ? file_id(&status) : (struct file_id){0};
    if (is_spared(way->terms->spared, &now)) {
        complain_text(way->place->name, way->terms->spared->what);
    } else if (way->step == NULL) {
        complain(way->place->name, error);
    } else {
        complain_at(way->place->name, way->step, way->place->folder_name, error);
    }
}

/* Opens the file that is there, which shows that it may be written too. Nothing there is no fault;
 * anything but a file is. */
static bool open_old(struct way *way) {
    struct stat status;
    const int how = O_WRONLY | O_NOFOLLOW | O_NONBLOCK | O_NOCTTY | O_CLOEXEC;
    way->old = openat(way->place->folder, way->place->base, how);
    if (way->old < 0) {
        return errno == ENOENT;
    }
    if (fstat(way->old, &status) != 0) {
        return false;
    }
    errno = EEXIST;
    return S_ISREG(status.st_mode);
}

enum replaced replace(const struct place *place, const struct terms *terms, const void *from,
                      size_t len) {
    struct way way = {place, terms, NULL, -1};
    enum replaced outcome = NOT_REPLACED;
    if (open_old(&way)) {
        const struct file_id old = file_id_of(way.old);
        const bool gone = way.old < 0 && terms->own.known && terms->exactly;
        const bool allowed = way.old < 0 || terms->any || same_id(&old, &terms->own);
        outcome = allowed && !gone ? go(&way, from, len) : TAKEN;
    }
    const int kept = errno;
    temporary_remove();
    if (way.old >= 0) {
        (void)close(way.old);
    }
    errno = kept;
    if (outcome == NOT_REPLACED) {
        complain_of(&way);
    }
    return outcome;
}
