#include "files/rack_file.h"

#include <errno.h>
#include <fcntl.h>
#include <inttypes.h>
#include <string.h>
#include <sys/file.h>
#include <sys/stat.h>
#include <time.h>
#include <unistd.h>

#include "report/messages.h"
#include "system/descriptors.h"

/* ---- the lock */

/* A lock that goes with the open file: no other file that is closed takes it along. */
static bool lock(int file, int how) {
    int locked;
    do {
        locked = flock(file, LOCK_EX | how);
    } while (locked != 0 && errno == EINTR);
    return locked == 0;
}

static struct timespec time_now(void) {
    struct timespec now = {0};
    (void)clock_gettime(CLOCK_MONOTONIC, &now);
    return now;
}

/* Whole seconds that have passed since then. */
static uint64_t seconds_since(const struct timespec *then) {
    const struct timespec now = time_now();
    return (uint64_t)(now.tv_sec - then->tv_sec - (now.tv_nsec < then->tv_nsec ? 1 : 0));
}

/* Tries again and again: a wait that ends by itself needs no signal that way. */
static bool lock_within(int file, const struct patience *patience) {
    const struct timespec pause = {0, 20000000};
    while (!lock(file, LOCK_NB)) {
        if (errno != EWOULDBLOCK || seconds_since(&patience->since) >= patience->seconds) {
            return false;
        }
        (void)nanosleep(&pause, NULL);
    }
    return true;
}

/* Whoever had the lock leaves another file, which a third may have locked by then: all that is one
 * wait. */
static void begin_waiting(const struct rack_file *rack, struct patience *patience) {
    if (patience->begun) {
        return;
    }
    patience->begun = true;
    patience->since = time_now();
    if (!patience->quiet && (!patience->bounded || patience->seconds > 0)) {
        remark(rack->place.name, "another program has locked it; waiting");
    }
}

static bool wait_for_lock(const struct rack_file *rack, struct patience *patience) {
    bool locked = lock(rack->file, LOCK_NB);
    if (!locked && errno == EWOULDBLOCK) {
        begin_waiting(rack, patience);
        locked = patience->bounded ? lock_within(rack->file, patience) : lock(rack->file, 0);
    }
    if (!locked && errno == EWOULDBLOCK) {
        remark(rack->place.name, "another program has it locked, after %" PRIu64 " seconds",
               patience->seconds);
    } else if (!locked) {
        complain_at(rack->place.name, "this file cannot be", "locked", errno);
    }
    return locked;
}

/* ---- opening */

/* Whether the name still leads to the file that was opened by it: whoever had the lock before has
 * put another in its place. */
static bool has_name(const struct rack_file *rack) {
    struct stat named;
    const struct file_id ours = file_id_of(rack->file);
    const struct file_id there =
        place_look(&rack->place, &named) ? file_id(&named) : (struct file_id){0};
    return same_id(&ours, &there);
}

/* What came of opening it; what is wrong has been said. */
enum found { NONE, LOCKED, BROKEN };

/* To be replaced, it has to be a file, and one that is not open already. */
static enum found no_rack(const char *name) {
    complain_text(name, "a rack is kept in a file, by its name");
    return BROKEN;
}

/* One try; the file is open afterwards unless it is NONE. */
static enum found try_open(struct rack_file *rack, struct patience *patience) {
    struct stat status;
    rack->file = openat(rack->place.folder, rack->place.base,
                        O_RDWR | O_NOFOLLOW | O_CLOEXEC | O_NOCTTY | O_NONBLOCK);
    if (rack->file < 0 && errno == ENOENT) {
        return NONE;
    }
    if (rack->file < 0 || fstat(rack->file, &status) != 0) {
        complain(rack->place.name, errno);
        return BROKEN;
    }
    if (!S_ISREG(status.st_mode)) {
        return no_rack(rack->place.name);
    }
    return wait_for_lock(rack, patience) ? LOCKED : BROKEN;
}

/* The file that has the name when the lock is there. */
static enum found open_locked(struct rack_file *rack, struct patience *patience) {
    enum found found = try_open(rack, patience);
    while (found == LOCKED && !has_name(rack)) {
        (void)close(rack->file);
        found = try_open(rack, patience);
    }
    return found;
}

/* Up to its end, or to one byte more than a rack has. */
static bool take_bytes(struct rack_file *rack) {
    ssize_t got = 1;
    while (got > 0 && rack->len < sizeof rack->bytes) {
        got = read_some(rack->file, rack->bytes + rack->len, sizeof rack->bytes - rack->len);
        rack->len += got > 0 ? (size_t)got : 0;
    }
    if (got < 0) {
        complain(rack->place.name, errno);
    }
    return got >= 0;
}

/* Only its owner can put a file with the same owner in its place, and root. Others are told before
 * anything is done: replaced by them, the rack would lock the owner out, or whom its list names. */
static bool is_ours(const struct rack_file *rack) {
    struct stat status;
    if (fstat(rack->file, &status) != 0) {
        complain(rack->place.name, errno);
        return false;
    }
    if (geteuid() != 0 && geteuid() != status.st_uid) {
        complain_text(rack->place.name, "this rack is another user's; replacing it would lock "
                                        "others out, so only its owner can change it");
        return false;
    }
    return true;
}

bool rack_file_open(struct rack_file *rack, const char *name, struct patience *patience) {
    *rack = (struct rack_file){.place = {.folder = -1}, .file = -1};
    if (is_dash(name) || descriptor_of(name) != NO_DESCRIPTOR) {
        no_rack(name);
        return false;
    }
    if (!place_open(name, true, &rack->place)) {
        return false;
    }
    const enum found found = open_locked(rack, patience);
    if (found == NONE) {
        rack->len = MAHYREI_RACK_BYTES;
        return true;
    }
    return found == LOCKED && is_ours(rack) && take_bytes(rack);
}

/* ---- replacing */

/* Where a file system says yes to a lock and locks nothing, the name has another file by now, and
 * that is seen just before it is replaced. */
bool rack_file_put(const struct rack_file *rack, bool *late) {
    const struct terms terms = {
        .own = rack->file >= 0 ? file_id_of(rack->file) : (struct file_id){0}, .exactly = true};
    const enum replaced outcome = replace(&rack->place, &terms, rack->bytes, rack->len);
    *late = outcome == TAKEN;
    return outcome == REPLACED;
}

/* The bytes are where they should be by now; how closing ends says nothing of them. */
void rack_file_close(struct rack_file *rack) {
    if (rack->file >= 0) {
        (void)close(rack->file);
    }
    rack->file = -1;
    place_close(&rack->place);
}
