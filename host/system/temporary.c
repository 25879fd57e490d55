#define _GNU_SOURCE /* renameat2 */
#include "system/temporary.h"

#include <errno.h>
#include <fcntl.h>
#include <signal.h>
#include <stdint.h>
#include <stdio.h>
#include <time.h>
#include <unistd.h>

/* For the handler, which has to know the file. */
static int in_folder;
static char made[32];
static volatile sig_atomic_t there;
static void (*end_hook)(void);

/* ---- signals */

/* Those that end no program by default, and those that cannot be caught. */
static bool harmless(int signal_number) {
    static const int HARMLESS[] = {SIGKILL,
                                   SIGSTOP,
                                   SIGCHLD,
                                   SIGCONT,
                                   SIGTSTP,
                                   SIGTTIN,
                                   SIGTTOU,
                                   SIGURG
#ifdef SIGWINCH
                                   ,
                                   SIGWINCH
#endif
    };
    for (size_t i = 0; i < sizeof HARMLESS / sizeof HARMLESS[0]; i++) {
        if (signal_number == HARMLESS[i]) {
            return true;
        }
    }
    return false;
}

/* The signal stays blocked until the handler is left, and then ends the program as it would have:
 * SA_RESETHAND has put the default back. */
static void end(int signal_number) {
    if (there) {
        unlinkat(in_folder, made, 0);
    }
    end_hook();
    raise(signal_number);
}

/* What the caller had ignored, as nohup does, stays ignored, and the numbers that the C library
 * keeps for itself (EINVAL) stay with it. */
static bool end_on(int signal_number) {
    struct sigaction before, action = {.sa_handler = end, .sa_flags = (int)SA_RESETHAND};
    if (sigaction(signal_number, NULL, &before) != 0) {
        return errno == EINVAL;
    }
    sigfillset(&action.sa_mask);
    return before.sa_handler != SIG_DFL || sigaction(signal_number, &action, NULL) == 0;
}

bool watch_signals(void (*at_end)(void)) {
    end_hook = at_end;
    for (int each = 1; each <= SIGRTMAX; each++) {
        if (each != SIGPIPE && each != SIGXFSZ && !harmless(each) && !end_on(each)) {
            return false;
        }
    }
    return signal(SIGPIPE, SIG_IGN) != SIG_ERR && signal(SIGXFSZ, SIG_IGN) != SIG_ERR;
}

/* ---- the file */

enum { TRIES = 1000, LETTERS = 6 };

/* A name that is hard to meet by chance; whether it is taken, the system says. */
static void choose_name(unsigned try) {
    static const char ALPHABET[] = "abcdefghijklmnopqrstuvwxyz0123456789";
    struct timespec now = {0};
    char letters[LETTERS + 1] = {0};
    (void)clock_gettime(CLOCK_MONOTONIC, &now);
    uint64_t seed = ((uint64_t)now.tv_nsec << 32 ^ (uint64_t)getpid() << 8 ^ try) *
                    UINT64_C(0x9E3779B97F4A7C15);
    seed ^= seed >> 29;
    for (size_t i = 0; i < LETTERS; i++, seed /= sizeof ALPHABET - 1) {
        letters[i] = ALPHABET[seed % (sizeof ALPHABET - 1)];
    }
    snprintf(made, sizeof made, ".mahyrei.%s", letters);
}

int temporary_make(int folder, mode_t mode) {
    sigset_t all, before;
    int file = -1;
    errno = EEXIST;
    for (unsigned try = 0; file < 0 && errno == EEXIST && try < TRIES; try++) {
        choose_name(try);
        /* No signal comes between the file and the knowledge of it. */
        sigfillset(&all);
        sigprocmask(SIG_BLOCK, &all, &before);
        in_folder = folder;
        file = openat(folder, made, O_WRONLY | O_CREAT | O_EXCL | O_CLOEXEC, mode);
        const int kept = errno;
        there = file >= 0;
        sigprocmask(SIG_SETMASK, &before, NULL);
        errno = kept;
    }
    return file;
}

bool temporary_name(const char *name) {
    if (renameat(in_folder, made, in_folder, name) != 0) {
        return false;
    }
    there = 0;
    return true;
}

/* One step where the system has it. */
static bool rename_new(const char *name) {
#ifdef RENAME_NOREPLACE
    return renameat2(in_folder, made, in_folder, name, RENAME_NOREPLACE) == 0;
#else
    (void)name;
    errno = ENOSYS;
    return false;
#endif
}

/* Some network disks know no such renaming, but second names: one fails where there is such a file,
 * and then the first is taken away. */
bool temporary_name_new(const char *name) {
    if (rename_new(name)) {
        there = 0;
        return true;
    }
    if ((errno != EINVAL && errno != ENOSYS && errno != ENOTSUP) ||
        linkat(in_folder, made, in_folder, name, 0) != 0) {
        return false;
    }
    temporary_remove();
    return true;
}

void temporary_remove(void) {
    const int kept = errno;
    if (there) {
        unlinkat(in_folder, made, 0);
        there = 0;
    }
    errno = kept;
}
