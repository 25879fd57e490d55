#include "report/progress.h"

#include <errno.h>
#include <signal.h>
#include <stddef.h>
#include <string.h>
#include <sys/time.h>
#include <unistd.h>

/* The library call is one call that nothing comes back from until it ends, so a timer's signal
 * draws the line; its handler uses these, which another thread may set, and write(2). */
static _Atomic int at_phase, halves, shown, ended, all;

static void say(const char *text, size_t len) {
    /* A line that does not come out harms nobody, and there is nowhere to say so. */
    const ssize_t ignored = write(STDERR_FILENO, text, len);
    (void)ignored;
}

/* A line that grows in the handler. */
struct drawn {
    size_t len;
    char at[128];
};

static void add(struct drawn *text, const char *more) {
    const size_t len = strlen(more);
    memcpy(text->at + text->len, more, len);
    text->len += len;
}

static void add_number(struct drawn *text, int number) {
    char digits[12];
    size_t count = 0;
    for (int rest = number; count == 0 || rest > 0; rest /= 10) {
        digits[count++] = (char)('0' + rest % 10);
    }
    while (count > 0) {
        text->at[text->len++] = digits[--count];
    }
}

static void add_phase(struct drawn *text) {
    static const char *const TEXTS[] = {"reading the input", "in the library", "writing the output",
                                        "waiting for the rack"};
    if (at_phase == COUNTING) {
        add_number(text, ended);
        add(text, " of ");
        add_number(text, all);
        add(text, " runs");
    } else if (at_phase == SCANNING) {
        add_number(text, ended);
        add(text, " % of the recording, runs sound: ");
        add_number(text, all);
    } else {
        add(text, TEXTS[at_phase]);
    }
}

static void tick(int signal_number) {
    (void)signal_number;
    const int kept = errno;
    struct drawn line = {0};
    halves = halves + 1;
    add(&line, "\r\033[Kmahyrei: ");
    add_phase(&line);
    add(&line, ", ");
    add_number(&line, halves / 2);
    add(&line, halves % 2 == 0 ? ".0 s" : ".5 s");
    shown = 1;
    say(line.at, line.len);
    errno = kept;
}

/* Ticks each half second, or not at all. */
static void set_timer(suseconds_t microseconds) {
    const struct itimerval each = {{0, microseconds}, {0, microseconds}};
    /* Without a timer the run goes on, only quietly. */
    (void)setitimer(ITIMER_REAL, &each, NULL);
}

void progress_start(void) {
    struct sigaction action = {.sa_handler = tick, .sa_flags = SA_RESTART};
    if (!isatty(STDERR_FILENO)) {
        return;
    }
    sigemptyset(&action.sa_mask);
    if (sigaction(SIGALRM, &action, NULL) == 0) {
        set_timer(500000);
    }
}

void progress_phase(enum phase phase) {
    at_phase = (int)phase;
}

void progress_count(int runs_ended, int runs) {
    ended = runs_ended;
    all = runs;
    at_phase = COUNTING;
}

void progress_scan(int percent, int runs_sound) {
    ended = percent;
    all = runs_sound;
    at_phase = SCANNING;
}

void progress_forget(void) {
    shown = 0;
}

void progress_wipe(void) {
    if (shown) {
        shown = 0;
        say("\r\033[K", 4);
    }
}

void progress_stop(void) {
    set_timer(0);
    progress_wipe();
}
