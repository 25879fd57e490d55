#include "system/mapping.h"

#include <signal.h>
#include <string.h>
#include <sys/mman.h>
#include <unistd.h>

#include "system/descriptors.h"
#include "system/temporary.h"

/* For the handler. */
static const uint8_t *volatile watched;
static volatile size_t watched_len;
static const char *volatile last_line;
static void (*volatile end_hook)(void);

bool mapping_make(int file, size_t len, struct mapping *mapping) {
    void *const at = mmap(NULL, len, PROT_READ, MAP_SHARED, file, 0);
    *mapping = (struct mapping){at == MAP_FAILED ? NULL : at, at == MAP_FAILED ? 0 : len};
    if (mapping->at != NULL) {
        (void)posix_madvise(mapping->at, len, POSIX_MADV_SEQUENTIAL);
    }
    return mapping->at != NULL;
}

void mapping_end(struct mapping *mapping) {
    if (mapping->at != NULL) {
        watched = NULL;
        (void)munmap(mapping->at, mapping->len);
    }
    *mapping = (struct mapping){0};
}

/* A page that is gone elsewhere is a fault of the program, and ends it as ever. */
static void lost(int signal_number, siginfo_t *about, void *context) {
    const uint8_t *const at = about->si_addr;
    (void)context;
    if (watched == NULL || at < watched || (size_t)(at - watched) >= watched_len) {
        (void)signal(signal_number, SIG_DFL);
        raise(signal_number);
        return;
    }
    temporary_remove();
    end_hook();
    (void)write_all(STDERR_FILENO, last_line, strlen(last_line));
    _exit(2);
}

bool mapping_watch(const struct mapping *mapping, const char *line, void (*at_end)(void)) {
    struct sigaction action = {.sa_flags = SA_SIGINFO};
    action.sa_sigaction = lost;
    sigfillset(&action.sa_mask);
    watched = mapping->at;
    watched_len = mapping->len;
    last_line = line;
    end_hook = at_end;
    return sigaction(SIGBUS, &action, NULL) == 0;
}
