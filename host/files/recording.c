#include "files/recording.h"

#include <errno.h>
#include <fcntl.h>
#include <stdlib.h>
#include <unistd.h>

#include "files/inputs.h"
#include "report/messages.h"
#include "report/progress.h"
#include "system/descriptors.h"

/* Said in a signal's handler, so it is made before. */
static bool prepare_lost(struct recording *recording) {
    if (!text_begin(&recording->lost)) {
        return false;
    }
    fputs("mahyrei: ", recording->lost.to);
    print_escaped(recording->lost.to, recording->name, false);
    fputs(": part of it is gone: it became shorter, or could not be read from the disk\n",
          recording->lost.to);
    return text_end(&recording->lost);
}

static bool map_file(struct recording *recording) {
    const size_t len = (size_t)recording->before.st_size;
    if ((uintmax_t)recording->before.st_size > SIZE_MAX) {
        errno = EFBIG;
        return false;
    }
    if (len == 0) {
        return true;
    }
    if (!mapping_make(recording->file, len, &recording->mapping) || !prepare_lost(recording) ||
        !mapping_watch(&recording->mapping, recording->lost.at, progress_wipe)) {
        return false;
    }
    recording->bytes = (struct bytes){recording->mapping.at, len};
    return true;
}

/* A file by its name can be mapped; an open one is read from where it is. */
static bool is_mappable(const char *name) {
    struct stat status;
    return !is_dash(name) && descriptor_of(name) == NO_DESCRIPTOR && stat(name, &status) == 0 &&
           S_ISREG(status.st_mode);
}

bool recording_open(const char *name, struct recording *recording) {
    *recording = (struct recording){.name = is_dash(name) ? "standard input" : name, .file = -1};
    if (!is_mappable(name)) {
        return take_in_all(name, &recording->bytes, &recording->id);
    }
    recording->file = open(name, O_RDONLY | O_CLOEXEC | O_NOCTTY);
    const bool good = recording->file >= 0 && fstat(recording->file, &recording->before) == 0 &&
                      map_file(recording);
    if (!good) {
        complain(recording->name, errno);
        return false;
    }
    recording->id = file_id_of(recording->file);
    return true;
}

void recording_close(struct recording *recording) {
    if (recording->mapping.at == NULL) {
        free(recording->bytes.at);
    }
    mapping_end(&recording->mapping);
    if (recording->file >= 0) {
        (void)close(recording->file);
    }
    text_free(&recording->lost);
    *recording = (struct recording){.file = -1};
}

static bool same_time(const struct timespec *one, const struct timespec *other) {
    return one->tv_sec == other->tv_sec && one->tv_nsec == other->tv_nsec;
}

bool recording_unchanged(const struct recording *recording) {
    struct stat now;
    if (recording->file < 0) {
        return true;
    }
    if (fstat(recording->file, &now) != 0) {
        complain(recording->name, errno);
        return false;
    }
    if (now.st_size != recording->before.st_size ||
        !same_time(&now.st_mtim, &recording->before.st_mtim)) {
        complain_text(recording->name,
                      "it changed while it was read. Each run that was found sound was "
                      "judged on a copy; the counts are of no single moment");
        return false;
    }
    return true;
}
