/*
 * Loaded before the command (LD_PRELOAD), to see what it does when the system fails it.
 *
 *   FAULT=NAME:COUNT:ERROR    the COUNT-th call of NAME fails with this error number
 *   FAULT=slow                reads and writes move little at a time, and signals interrupt them
 *   FAULT=hold                fsync waits as long as there is a file `hold` in the folder
 *   FAULT=holdmode            fchmod does
 *   FAULT=amid                another program ends the last line of the file `log` once the line's
 *                             end has been looked at
 *   FAULT=ticking             timers run a hundred times as fast
 *   FAULT=nonblocking         the standard files do not block
 *   FAULT=memory              the machine has four pages of memory
 *
 * NAME is read, write, fsync, fchmod, close (of a file that is written), rename (of any kind),
 * noreplace (renameat2), link, flock, setlk (of fcntl) or thread (pthread_create).
 *
 *   GARBLE=COUNT              the COUNT-th read that gives bytes has a wrong bit
 *   NOLOCK=1                  flock says yes and locks nothing
 *   SWAP=NAME:FROM:TO         at the first call of open (for writing alone), create (by open),
 *                             folder (opening one), flock, fsync or rename, FROM is renamed to TO:
 *                             somebody else is at work in the folder
 */
#define _GNU_SOURCE /* syscall, RTLD_NEXT */
#include <dlfcn.h>
#include <errno.h>
#include <fcntl.h>
#include <pthread.h>
#include <stdarg.h>
#include <stdbool.h>
#include <stdio.h>
#include <stdlib.h>
#include <string.h>
#include <sys/stat.h>
#include <sys/syscall.h>
#include <sys/time.h>
#include <sys/types.h>
#include <unistd.h>

static long left = -1;

/* Reads NAME:COUNT:ERROR where it has this name. */
static bool fails(const char *name) {
    const char *const fault = getenv("FAULT");
    const size_t len = strlen(name);
    if (fault == NULL || strncmp(fault, name, len) != 0 || fault[len] != ':') {
        return false;
    }
    char *end;
    const long count = strtol(fault + len + 1, &end, 10);
    const long error = *end == ':' ? strtol(end + 1, &end, 10) : 0;
    if (*end != '\0' || count < 1 || error < 1) {
        fprintf(stderr, "FAULT is NAME:COUNT:ERROR, not %s\n", fault);
        abort();
    }
    left = left < 0 ? count : left;
    errno = (int)error;
    return left > 0 && --left == 0;
}

static bool is(const char *kind) {
    const char *const fault = getenv("FAULT");
    return fault != NULL && strcmp(fault, kind) == 0;
}

static bool slow(void) {
    return is("slow");
}

__attribute__((constructor)) static void unblock(void) {
    for (int file = 0; file < 3 && is("nonblocking"); file++) {
        fcntl(file, F_SETFL, fcntl(file, F_GETFL) | O_NONBLOCK);
    }
}

/* How much a slow call moves: nothing, since it was interrupted, or an odd piece. */
static bool moves(size_t *count) {
    static unsigned calls;
    if (slow() && ++calls % 3 == 0) {
        errno = EINTR;
        return false;
    }
    *count = slow() && *count > 4099 ? 4099 : *count;
    return true;
}

/* Once, at the moment that is asked for. */
static void swap(const char *moment) {
    const char *const names = getenv("SWAP");
    char wanted[16], from[256], to[256];
    static bool done;
    if (!done && names != NULL && sscanf(names, "%15[a-z]:%255[^:]:%255s", wanted, from, to) == 3 &&
        strcmp(wanted, moment) == 0) {
        done = true;
        syscall(SYS_rename, from, to);
    }
}

/* GARBLE=COUNT: whether this read, of those that give bytes, is the COUNT-th. */
static bool garbles(void) {
    static long reads;
    const char *const count = getenv("GARBLE");
    return count != NULL && ++reads == strtol(count, NULL, 10);
}

ssize_t read(int file, void *to, size_t count) {
    if (fails("read") || !moves(&count)) {
        return -1;
    }
    const ssize_t got = syscall(SYS_read, file, to, count);
    if (got > 0 && garbles()) {
        unsigned char *const first = to;
        *first ^= 1;
    }
    return got;
}

ssize_t write(int file, const void *from, size_t count) {
    return fails("write") || !moves(&count) ? -1 : syscall(SYS_write, file, from, count);
}

ssize_t pread(int file, void *to, size_t count, off_t from) {
    static bool done;
    const ssize_t got = syscall(SYS_pread64, file, to, count, from);
    if (is("amid") && got == 1 && count == 1 && !done) {
        done = true;
        const int log = (int)syscall(SYS_openat, AT_FDCWD, "log", O_WRONLY | O_APPEND | O_CLOEXEC);
        syscall(SYS_write, log, " status=0\n", 10);
        syscall(SYS_close, log);
    }
    return got;
}

static void wait_where(const char *kind) {
    while (is(kind) && access("hold", F_OK) == 0) {
        usleep(5000);
    }
}

int fsync(int file) {
    wait_where("hold");
    swap("fsync");
    return fails("fsync") ? -1 : (int)syscall(SYS_fsync, file);
}

/* Opening for writing alone, where nothing is made, or a folder. */
int open(const char *name, int how, ...) {
    va_list rest;
    va_start(rest, how);
    const mode_t mode = (how & O_CREAT) != 0 ? va_arg(rest, mode_t) : 0;
    va_end(rest);
    if ((how & (O_ACCMODE | O_CREAT)) == O_WRONLY) {
        swap("open");
    }
    if ((how & O_CREAT) != 0) {
        swap("create");
    }
    if ((how & O_DIRECTORY) != 0) {
        swap("folder");
    }
    return (int)syscall(SYS_openat, AT_FDCWD, name, how, mode);
}

int setitimer(__itimer_which_t which, const struct itimerval *set, struct itimerval *old) {
    struct itimerval fast = *set;
    if (is("ticking")) {
        fast.it_interval.tv_usec /= 100;
        fast.it_value.tv_usec /= 100;
    }
    return (int)syscall(SYS_setitimer, which, &fast, old);
}

int fchmod(int file, mode_t mode) {
    wait_where("holdmode");
    return fails("fchmod") ? -1 : (int)syscall(SYS_fchmod, file, mode);
}

static bool is_written(int file) {
    struct stat status;
    return fstat(file, &status) == 0 && S_ISREG(status.st_mode) &&
           (fcntl(file, F_GETFL) & O_ACCMODE) != O_RDONLY;
}

int close(int file) {
    const bool written = is_written(file);
    const int closed = (int)syscall(SYS_close, file);
    return written && fails("close") ? -1 : closed;
}

int renameat(int from_folder, const char *from, int to_folder, const char *to) {
    swap("rename");
    return fails("rename") ? -1 : (int)syscall(SYS_renameat2, from_folder, from, to_folder, to, 0);
}

int renameat2(int from_folder, const char *from, int to_folder, const char *to, unsigned flags) {
    swap("rename");
    return fails("rename") || fails("noreplace")
               ? -1
               : (int)syscall(SYS_renameat2, from_folder, from, to_folder, to, flags);
}

int linkat(int from_folder, const char *from, int to_folder, const char *to, int flags) {
    return fails("link") ? -1 : (int)syscall(SYS_linkat, from_folder, from, to_folder, to, flags);
}

int flock(int file, int operation) {
    const bool locked = getenv("NOLOCK") != NULL || !fails("flock");
    swap("flock");
    return !locked ? -1 : getenv("NOLOCK") != NULL ? 0 : (int)syscall(SYS_flock, file, operation);
}

int fcntl(int file, int command, ...) {
    va_list rest;
    va_start(rest, command);
    void *const argument = va_arg(rest, void *);
    va_end(rest);
    return command == F_SETLK && fails("setlk") ? -1
                                                : (int)syscall(SYS_fcntl, file, command, argument);
}

typedef long ask_system(int);

long sysconf(int name) {
    ask_system *ask;
    *(void **)&ask = dlsym(RTLD_NEXT, "sysconf");
    return name == _SC_PHYS_PAGES && is("memory") ? 4 : ask(name);
}

typedef int create_thread(pthread_t *, const pthread_attr_t *, void *(*)(void *), void *);

int pthread_create(pthread_t *thread, const pthread_attr_t *attributes, void *(*start)(void *),
                   void *argument) {
    create_thread *create;
    *(void **)&create = dlsym(RTLD_NEXT, "pthread_create");
    return fails("thread") ? errno : create(thread, attributes, start, argument);
}
