/* batch: the runs of a list, each in a process of its own, as many at once as there are cores. */
#include <errno.h>
#include <fcntl.h>
#include <poll.h>
#include <signal.h>
#include <stdio.h>
#include <stdlib.h>
#include <string.h>
#include <sys/wait.h>
#include <unistd.h>
#ifdef __linux__
#include <sys/prctl.h>
#endif

#include "commands/batch_list.h"
#include "commands/batch_results.h"
#include "commands/command_line.h"
#include "commands/line.h"
#include "commands/number_operands.h"
#include "files/bytes.h"
#include "report/messages.h"
#include "report/progress.h"
#include "system/descriptors.h"

/* How the process of a run ends, beside the command's own statuses: it was done before. */
enum { SKIPPED = FAILED + 1, ENDS };
enum { JOBS_MOST = 1024, SAID = 4096 };

/* What the process of a run sends when it is done with it. */
struct message {
    int end;
    struct entry entry;
};

/* A process at work on a run. */
struct worker {
    pid_t pid;
    const struct item *item;
    int message, said_from; /* where its message comes from, and what it says on standard error */
    size_t said_len;
    char said[SAID];
};

struct batch {
    struct batch_list list;
    struct results results;
    const struct line *line;
    size_t jobs, running, next, counts[ENDS];
    struct worker *workers; /* the running ones are the first */
    struct pollfd *polled;
    bool broken; /* no further run is begun */
};

/* ---- in the process of a run */

/* A run that nobody waits for would write its output when another has begun on the list. */
static bool stay_with(pid_t parent) {
#ifdef __linux__
    if (prctl(PR_SET_PDEATHSIG, SIGTERM) != 0) {
        return false;
    }
#endif
    return getppid() == parent;
}

static int make_run(const struct batch *batch, const struct item *item, struct entry *entry) {
    const struct record *const record = results_find(&batch->results, item);
    struct line line = {.command = command_named(item->kind->name),
                        .count = (int)item_count(item),
                        .operands = (char **)item->operands};
    entry_begin(entry, line.command->name);
    if (record != NULL && still_done(item, record)) {
        return SKIPPED;
    }
    const struct resumed resumed = {own_output(&batch->results, item)};
    line.resumed = &resumed;
    line.options[FORCE] = batch->line->options[FORCE];
    line.options[LOG] = batch->line->options[LOG];
    line.options[CAPTURE] = item->captured ? "" : NULL;
    line.options[QUIET] = ""; /* the result stands for a log on standard error */
    return (int)run_logged(&line, entry);
}

static _Noreturn void work(const struct batch *batch, const struct item *item, pid_t parent,
                           const int message_to[2], const int said_to[2]) {
    struct message message;
    progress_forget();
    if (!stay_with(parent) || dup2(said_to[1], STDERR_FILENO) < 0) {
        _exit(FAILED);
    }
    close(said_to[0]);
    close(said_to[1]);
    close(message_to[0]);
    memset(&message, 0, sizeof message);
    message.end = make_run(batch, item, &message.entry);
    _exit(write_all(message_to[1], &message, sizeof message) ? DONE : FAILED);
}

/* ---- beginning and ending runs */

static bool make_pipe(int ends[2]) {
    if (pipe(ends) != 0) {
        return false;
    }
    fcntl(ends[0], F_SETFD, FD_CLOEXEC);
    fcntl(ends[1], F_SETFD, FD_CLOEXEC);
    return true;
}

static void close_pipe(const int ends[2]) {
    close(ends[0]);
    close(ends[1]);
}

/* The process, or -1 and errno. */
static pid_t begin_with(const struct batch *batch, const struct item *item, const int message[2],
                        const int said[2]) {
    const pid_t parent = getpid(), pid = fork();
    if (pid == 0) {
        work(batch, item, parent, message, said);
    }
    return pid;
}

static bool begin(struct batch *batch) {
    const struct item *const item = &batch->list.items[batch->next];
    int message[2], said[2];
    if (!make_pipe(message)) {
        return false;
    }
    if (!make_pipe(said)) {
        close_pipe(message);
        return false;
    }
    const pid_t pid = begin_with(batch, item, message, said);
    const int kept = errno;
    close(message[1]);
    close(said[1]);
    if (pid < 0) {
        close(message[0]);
        close(said[0]);
        errno = kept;
        return false;
    }
    batch->workers[batch->running++] = (struct worker){pid, item, message[0], said[0], 0, {0}};
    batch->next++;
    return true;
}

/* A machine that is short of processes has some when a run ends. */
static void begin_some(struct batch *batch) {
    while (!batch->broken && batch->running < batch->jobs && batch->next < batch->list.count) {
        if (!begin(batch)) {
            if (batch->running == 0) {
                complain("a process for a run", errno);
                batch->broken = true;
            }
            return;
        }
    }
}

/* The signal that ended a process, or 0. */
static int wait_for(pid_t pid) {
    int status = 0;
    while (waitpid(pid, &status, 0) < 0 && errno == EINTR) {
    }
    return WIFSIGNALED(status) ? WTERMSIG(status) : 0;
}

/* The message that a run sent, whole or not at all. */
static bool take_message(int from, struct message *message) {
    uint8_t *const to = (void *)message;
    size_t got = 0;
    for (ssize_t more = 1; more > 0 && got<sizeof *message; got += more> 0 ? (size_t)more : 0) {
        more = read_some(from, to + got, sizeof *message - got);
    }
    return got == sizeof *message;
}

static void end_said(struct worker *worker) {
    while (worker->said_len > 0 && worker->said[worker->said_len - 1] == '\n') {
        worker->said_len--;
    }
    worker->said[worker->said_len] = '\0';
}

/* Says which run was refused or failed, and the first line of why. Saying ends the line of
 * progress, which is begun again. */
static void name_run(const struct batch *batch, const struct worker *worker) {
    static const char OURS[] = "mahyrei: ";
    const char *const said =
        worker->said_len == 0 ? "it was ended without a message" : worker->said;
    const size_t skipped = strncmp(said, OURS, sizeof OURS - 1) == 0 ? sizeof OURS - 1 : 0;
    char about[40];
    snprintf(about, sizeof about, "line %zu of the list", worker->item->line);
    remark(about, "%.*s", (int)strcspn(said + skipped, "\n"), said + skipped);
    if (batch->line->options[QUIET] == NULL) {
        progress_start();
    }
}

/* A run that was ended before it sent its message has failed, whatever was written. Its status is
 * in the message: that of the process is lost where the caller has children ignored. */
static void finish(struct batch *batch, struct worker *worker) {
    struct message message;
    const bool sent = take_message(worker->message, &message);
    const int signal = wait_for(worker->pid), end = sent ? message.end : FAILED;
    end_said(worker);
    close(worker->message);
    close(worker->said_from);
    batch->counts[end]++;
    if (end != SKIPPED) {
        const struct result result = {worker->item, end, signal, sent ? &message.entry : NULL,
                                      worker->said};
        batch->broken = !results_add(&batch->results, &result) || batch->broken;
    }
    if (end == REFUSED || end == FAILED) {
        name_run(batch, worker);
    }
    *worker = batch->workers[--batch->running];
}

/* ---- the loop */

/* Takes what a run says; false at its end. What is too long is left out. */
static bool listen_to(struct worker *worker) {
    char more[512];
    const ssize_t got = read_some(worker->said_from, more, sizeof more);
    const size_t room = SAID - 1 - worker->said_len;
    const size_t kept = got <= 0 ? 0 : (size_t)got < room ? (size_t)got : room;
    memcpy(worker->said + worker->said_len, more, kept);
    worker->said_len += kept;
    return got > 0;
}

/* A run has ended when its standard error has no writer left. */
static bool wait_for_some(struct batch *batch) {
    for (size_t i = 0; i < batch->running; i++) {
        batch->polled[i] = (struct pollfd){batch->workers[i].said_from, POLLIN, 0};
    }
    if (poll(batch->polled, (nfds_t)batch->running, -1) < 0) {
        return errno == EINTR;
    }
    for (size_t i = batch->running; i-- > 0;) { /* the last takes the place of one that ends */
        if (batch->polled[i].revents != 0 && !listen_to(&batch->workers[i])) {
            finish(batch, &batch->workers[i]);
        }
    }
    return true;
}

static size_t count_ended(const struct batch *batch) {
    return batch->next - batch->running;
}

static bool run_list(struct batch *batch) {
    for (begin_some(batch); batch->running > 0; begin_some(batch)) {
        progress_count((int)count_ended(batch), (int)batch->list.count);
        if (!wait_for_some(batch)) {
            complain("waiting for runs", errno);
            return false;
        }
    }
    return !batch->broken;
}

/* ---- the command */

static bool count_jobs(const struct line *line, size_t *jobs) {
    const long cores = sysconf(_SC_NPROCESSORS_ONLN);
    uint64_t number = cores < 1 ? 1 : (uint64_t)cores;
    if (line->options[JOBS] != NULL && !take_number(line->options[JOBS], &number)) {
        return false;
    }
    if (number == 0) {
        complain_text("--jobs", "a number from 1 on");
        return false;
    }
    *jobs = number < JOBS_MOST ? (size_t)number : JOBS_MOST;
    return true;
}

/* LIST.results, on the heap. */
static char *results_name(const struct line *line) {
    static const char END[] = ".results";
    const char *const given = line->options[RESULTS], *const list = line->operands[0];
    if (given != NULL || is_dash(list)) {
        return strdup(given == NULL ? "-" : given);
    }
    const size_t len = strlen(list) + sizeof END;
    char *const name = malloc(len);
    if (name != NULL) {
        snprintf(name, len, "%s%s", list, END);
    }
    return name;
}

static bool prepare(struct batch *batch, const char *results) {
    struct bytes workers, polled;
    const struct other others[] = {
        {batch->line->operands[0], false}, {results, true}, {batch->line->options[LOG], true}};
    if (!count_jobs(batch->line, &batch->jobs) ||
        !list_take(batch->line->operands[0], &batch->list) ||
        !list_check(&batch->list, others, sizeof others / sizeof others[0]) ||
        !make_buffer(batch->jobs * sizeof *batch->workers, &workers)) {
        return false;
    }
    batch->workers = (void *)workers.at;
    if (!make_buffer(batch->jobs * sizeof *batch->polled, &polled)) {
        return false;
    }
    batch->polled = (void *)polled.at;
    return results_open(results, &batch->results);
}

static void say_counts(const struct batch *batch) {
    if (batch->line->options[QUIET] == NULL) {
        const size_t left = batch->list.count - batch->next;
        remark(NULL, "%zu runs: %zu done, %zu done before, %zu refused, %zu failed, %zu left",
               batch->list.count, batch->counts[DONE], batch->counts[SKIPPED],
               batch->counts[REFUSED], batch->counts[FAILED], left);
    }
}

static enum status run_batch(struct batch *batch, const char *results) {
    bool good = prepare(batch, results);
    if (good) {
        good = run_list(batch);
        say_counts(batch);
    }
    good = results_close(&batch->results) && good;
    return !good || batch->counts[FAILED] > 0 ? FAILED
           : batch->counts[REFUSED] > 0       ? REFUSED
                                              : DONE;
}

enum status batch_command(const struct line *line, struct entry *entry) {
    struct batch batch = {.line = line, .results = {.file = -1}};
    char *const results = results_name(line);
    enum status status = FAILED;
    (void)entry;
    if (results == NULL) {
        complain("memory", ENOMEM);
    } else {
        status = run_batch(&batch, results);
    }
    free(results);
    free(batch.workers);
    free(batch.polled);
    list_free(&batch.list);
    return status;
}
