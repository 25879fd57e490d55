/*
 * Loaded before the command (LD_PRELOAD), it writes down each operation on files that a power cut
 * may catch on its way to the disk, in the order in which they were done, by all processes of the
 * command. tests/crash/run reads that.
 *
 *   CRASH_TRACE=FILE                  where it is written down
 *   CRASH_FAULT=no-fsync              a file that is to be brought to the disk is not
 *   CRASH_FAULT=no-folder-fsync       a folder that is to be brought to the disk is not
 *   CRASH_FAULT=rename-before-fsync   a file is brought to the disk only after it took its name
 *
 * A line is the operation's name and its words, with tabs between them: an inode's number, the
 * bytes in hexadecimal, whole paths. What fails is not written down, nor what is done to anything
 * but files and folders. Nothing is really brought to the disk: that would only take time.
 */
#define _GNU_SOURCE /* O_TMPFILE, syscall */
#include <errno.h>
#include <fcntl.h>
#include <inttypes.h>
#include <limits.h>
#include <pthread.h>
#include <stdarg.h>
#include <stdbool.h>
#include <stdio.h>
#include <stdlib.h>
#include <string.h>
#include <sys/stat.h>
#include <sys/syscall.h>
#include <sys/types.h>
#include <unistd.h>

/* ---- the trace */

enum { TRACE_FROM = 200, HELD_MOST = 64 };

static int trace = -1;
static pthread_mutex_t mutex = PTHREAD_MUTEX_INITIALIZER;

static _Noreturn void give_up(const char *what) {
    perror(what);
    abort();
}

/* The number is one that the command does not look at, and closed on exec as its own are. */
__attribute__((constructor)) static void open_trace(void) {
    const char *const name = getenv("CRASH_TRACE");
    if (name == NULL) {
        return;
    }
    const int file =
        (int)syscall(SYS_openat, AT_FDCWD, name, O_WRONLY | O_APPEND | O_CREAT | O_CLOEXEC, 0666);
    trace = file < 0 ? -1 : (int)syscall(SYS_fcntl, file, F_DUPFD_CLOEXEC, TRACE_FROM);
    if (trace < 0) {
        give_up("CRASH_TRACE");
    }
    syscall(SYS_close, file);
}

/* One operation at a time, of all processes, so that the order of the lines is that of the
 * operations. A lock of this kind is not inherited by a child. */
static void lock(short type) {
    struct flock all = {.l_type = type, .l_whence = SEEK_SET};
    if (trace >= 0 && syscall(SYS_fcntl, trace, F_SETLKW, &all) != 0) {
        give_up("CRASH_TRACE");
    }
}

static void enter(void) {
    pthread_mutex_lock(&mutex);
    lock(F_WRLCK);
}

static void leave(void) {
    const int kept = errno;
    lock(F_UNLCK);
    pthread_mutex_unlock(&mutex);
    errno = kept;
}

static void put(const char *text, size_t len) {
    if (trace >= 0 && syscall(SYS_write, trace, text, len) != (ssize_t)len) {
        give_up("CRASH_TRACE");
    }
}

__attribute__((format(printf, 1, 2))) static void note(const char *form, ...) {
    char text[5 * PATH_MAX];
    va_list words;
    va_start(words, form);
    const int len = vsnprintf(text, sizeof text, form, words);
    va_end(words);
    if (len < 0 || (size_t)len >= sizeof text) {
        give_up("a line of CRASH_TRACE");
    }
    put(text, (size_t)len);
}

/* ---- files and paths */

/* A name's path from the root. */
struct path {
    char text[2 * PATH_MAX];
};

/* The folder is a descriptor as openat(2) takes it. */
static struct path path_of(int folder, const char *name) {
    struct path path;
    char found[PATH_MAX] = "";
    if (name[0] != '/') {
        char shown[64];
        snprintf(shown, sizeof shown, "/proc/self/fd/%d", folder);
        const char *const at = folder == AT_FDCWD ? "/proc/self/cwd" : shown;
        if (readlink(at, found, sizeof found - 1) < 0) {
            give_up(name);
        }
    }
    const int len =
        snprintf(path.text, sizeof path.text, "%s%s%s", found, name[0] == '/' ? "" : "/", name);
    if (len < 0 || (size_t)len >= sizeof path.text) {
        give_up(name);
    }
    return path;
}

/* 0 where there is no such file. */
static uint64_t inode_at(int folder, const char *name) {
    struct stat status;
    return fstatat(folder, name, &status, AT_SYMLINK_NOFOLLOW) == 0 ? (uint64_t)status.st_ino : 0;
}

/* Whether this is a file, or a folder, and its inode. */
static bool is_kind(int file, mode_t kind, uint64_t *inode) {
    struct stat status;
    if (fstat(file, &status) != 0 || (status.st_mode & S_IFMT) != kind) {
        return false;
    }
    *inode = (uint64_t)status.st_ino;
    return true;
}

/* ---- faults */

static bool has_fault(const char *name) {
    const char *const fault = getenv("CRASH_FAULT");
    return fault != NULL && strcmp(fault, name) == 0;
}

/* Files that are to be brought to the disk later than the command thinks. */
static int held[HELD_MOST];
static size_t held_count;

static bool hold(int file) {
    if (held_count == HELD_MOST) {
        give_up("rename-before-fsync");
    }
    held[held_count] = (int)syscall(SYS_fcntl, file, F_DUPFD_CLOEXEC, TRACE_FROM);
    return held[held_count++] >= 0;
}

static void sync_held(void) {
    uint64_t inode;
    for (size_t i = 0; i < held_count; i++) {
        if (is_kind(held[i], S_IFREG, &inode)) {
            note("fsync\t%" PRIu64 "\n", inode);
        }
        syscall(SYS_close, held[i]);
    }
    held_count = 0;
}

__attribute__((destructor)) static void end(void) {
    enter();
    sync_held();
    leave();
}

/* ---- opening, writing, bringing to the disk */

static int open_file(int folder, const char *name, int flags, mode_t mode) {
    struct stat before;
    uint64_t inode;
    enter();
    const bool was_there = fstatat(folder, name, &before, 0) == 0;
    const int file = (int)syscall(SYS_openat, folder, name, flags, mode);
    if (file >= 0 && (flags & O_CREAT) != 0 && !was_there && is_kind(file, S_IFREG, &inode)) {
        note("create\t%" PRIu64 "\t%s\n", inode, path_of(folder, name).text);
    } else if (file >= 0 && (flags & O_TRUNC) != 0 && is_kind(file, S_IFREG, &inode)) {
        note("truncate\t%" PRIu64 "\t0\n", inode);
    }
    leave();
    return file;
}

/* The mode is there only where a file may be made. */
#define OPENS(folder, name, flags)                                                                 \
    mode_t mode = 0;                                                                               \
    if (((flags) & (O_CREAT | O_TMPFILE)) != 0) {                                                  \
        va_list words;                                                                             \
        va_start(words, flags);                                                                    \
        mode = va_arg(words, mode_t);                                                              \
        va_end(words);                                                                             \
    }                                                                                              \
    return open_file(folder, name, flags, mode)

int open(const char *name, int flags, ...) {
    OPENS(AT_FDCWD, name, flags);
}

int open64(const char *name, int flags, ...) {
    OPENS(AT_FDCWD, name, flags);
}

int openat(int folder, const char *name, int flags, ...) {
    OPENS(folder, name, flags);
}

int openat64(int folder, const char *name, int flags, ...) {
    OPENS(folder, name, flags);
}

static void note_write(int file, off_t at, const void *from, size_t len) {
    static const char DIGITS[] = "0123456789abcdef";
    const uint8_t *const bytes = from;
    uint64_t inode;
    if (!is_kind(file, S_IFREG, &inode)) {
        return;
    }
    char *const text = malloc(2 * len + 1);
    if (text == NULL) {
        give_up("CRASH_TRACE");
    }
    for (size_t i = 0; i < len; i++) {
        text[2 * i] = DIGITS[bytes[i] >> 4];
        text[2 * i + 1] = DIGITS[bytes[i] & 15];
    }
    text[2 * len] = '\n';
    note("write\t%" PRIu64 "\t%jd\t", inode, (intmax_t)at);
    put(text, 2 * len + 1);
    free(text);
}

ssize_t write(int file, const void *from, size_t len) {
    enter();
    const ssize_t got = syscall(SYS_write, file, from, len);
    if (got > 0) {
        note_write(file, lseek(file, 0, SEEK_CUR) - got, from, (size_t)got);
    }
    leave();
    return got;
}

ssize_t pwrite(int file, const void *from, size_t len, off_t at) {
    enter();
    const ssize_t got = syscall(SYS_pwrite64, file, from, len, at);
    if (got > 0) {
        note_write(file, at, from, (size_t)got);
    }
    leave();
    return got;
}

int ftruncate(int file, off_t len) {
    uint64_t inode;
    enter();
    const int done = (int)syscall(SYS_ftruncate, file, len);
    if (done == 0 && is_kind(file, S_IFREG, &inode)) {
        note("truncate\t%" PRIu64 "\t%jd\n", inode, (intmax_t)len);
    }
    leave();
    return done;
}

int fsync(int file) {
    uint64_t inode;
    bool good = true;
    enter();
    const bool folder = is_kind(file, S_IFDIR, &inode);
    if (folder || is_kind(file, S_IFREG, &inode)) {
        if (!folder && has_fault("rename-before-fsync")) {
            good = hold(file);
        } else if (!has_fault(folder ? "no-folder-fsync" : "no-fsync")) {
            note("fsync\t%" PRIu64 "\n", inode);
        }
    }
    leave();
    return good ? 0 : -1;
}

int fdatasync(int file) {
    return fsync(file);
}

/* ---- names */

static int rename_file(int from_folder, const char *from, int to_folder, const char *to,
                       unsigned flags) {
    enter();
    const uint64_t inode = inode_at(from_folder, from);
    const int done = (int)syscall(SYS_renameat2, from_folder, from, to_folder, to, flags);
    if (done == 0) {
        note("rename\t%" PRIu64 "\t%s\t%s\n", inode, path_of(from_folder, from).text,
             path_of(to_folder, to).text);
        sync_held();
    }
    leave();
    return done;
}

int rename(const char *from, const char *to) {
    return rename_file(AT_FDCWD, from, AT_FDCWD, to, 0);
}

int renameat(int from_folder, const char *from, int to_folder, const char *to) {
    return rename_file(from_folder, from, to_folder, to, 0);
}

int renameat2(int from_folder, const char *from, int to_folder, const char *to, unsigned flags) {
    return rename_file(from_folder, from, to_folder, to, flags);
}

int linkat(int from_folder, const char *from, int to_folder, const char *to, int flags) {
    enter();
    const int done = (int)syscall(SYS_linkat, from_folder, from, to_folder, to, flags);
    if (done == 0) {
        note("link\t%" PRIu64 "\t%s\n", inode_at(to_folder, to), path_of(to_folder, to).text);
        sync_held();
    }
    leave();
    return done;
}

int link(const char *from, const char *to) {
    return linkat(AT_FDCWD, from, AT_FDCWD, to, 0);
}

int unlinkat(int folder, const char *name, int flags) {
    enter();
    const uint64_t inode = inode_at(folder, name);
    const int done = (int)syscall(SYS_unlinkat, folder, name, flags);
    if (done == 0) {
        note("unlink\t%" PRIu64 "\t%s\n", inode, path_of(folder, name).text);
    }
    leave();
    return done;
}

int unlink(const char *name) {
    return unlinkat(AT_FDCWD, name, 0);
}
