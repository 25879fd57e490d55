#include "report/log.h"

#include <errno.h>
#include <fcntl.h>
#include <stdlib.h>
#include <sys/stat.h>
#include <unistd.h>

#include "formats/text.h"
#include "report/messages.h"
#include "system/appending.h"
#include "system/descriptors.h"

/* A file that is there is opened without making one, so that it is known which of the two it was.
 */
static void open_named(struct log *log) {
    const int how = O_WRONLY | O_APPEND | O_NOCTTY | O_CLOEXEC;
    log->ours = true;
    log->file = open(log->name, how);
    if (log->file < 0 && errno == ENOENT) {
        log->file = open(log->name, how | O_CREAT, 0666);
        log->created = log->file >= 0;
    }
}

bool log_open(struct log *log, const char *name) {
    if (name != NULL && is_dash(name)) {
        complain_text("-", "the log is a file, ./- for one of this name; where none is named it is "
                           "standard error");
        return false;
    }
    const int handed = name == NULL ? STDERR_FILENO : descriptor_of(name);
    *log = (struct log){handed, name, false, false};
    if (handed < 0) {
        open_named(log);
    } else if (!handed_over(handed)) {
        log->file = -1;
    }
    if (log->file < 0) {
        complain(name, errno);
    }
    return log->file >= 0;
}

struct file_id log_id(const struct log *log) {
    const struct file_id none = {0};
    return log->file < 0 ? none : file_id_of(log->file);
}

/* The file that was made goes, and not a link that led to where it is. One that has a line by now
 * is another run's too. */
void log_drop(struct log *log) {
    struct stat status;
    if (log->ours && log->file >= 0) {
        const bool empty = fstat(log->file, &status) == 0 && status.st_size == 0;
        char *const made = log->created && empty ? realpath(log->name, NULL) : NULL;
        (void)close(log->file);
        if (made != NULL) {
            (void)unlink(made);
        }
        free(made);
    }
    log->file = -1;
}

/* A log that is named is brought to the disk. So is its name: it may have been made by another run,
 * which has not come as far. Where the folder cannot be opened, or the log has been moved on by
 * now, that is a fault only of a log that was made here. */
static bool bring_to_disk(const struct log *log) {
    struct stat status;
    if (log->name == NULL) {
        return true;
    }
    if (!sync_data(log->file) || fstat(log->file, &status) != 0) {
        return false;
    }
    return !log->ours || !S_ISREG(status.st_mode) || sync_name(log->name) ||
           (!log->created && (errno == EACCES || errno == ENOENT));
}

static const char *shown(const struct log *log) {
    return log->name == NULL ? "the log" : log->name;
}

bool log_add(const struct log *log, const struct entry *entry, int status) {
    struct text line;
    if (log->file < 0) {
        return true;
    }
    bool good = text_begin(&line);
    if (good) {
        entry_print(line.to, entry, status);
        good = text_end(&line) && append_line(log->file, line.at, line.len) && bring_to_disk(log);
    }
    if (!good) {
        complain(shown(log), errno);
    }
    text_free(&line);
    return good;
}

bool log_end(struct log *log, const struct entry *entry, int status) {
    const bool good = log_add(log, entry, status);
    if (log->file < 0 || !log->ours) {
        return good;
    }
    if (close(log->file) != 0 && good) {
        complain(shown(log), errno);
        return false;
    }
    return good;
}
